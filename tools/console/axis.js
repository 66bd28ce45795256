// Marks of a time axis: where they stand and what they say.

const [SECOND, MINUTE, HOUR, DAY] = [1000, 60_000, 3_600_000, 86_400_000];
const STEPS = [
  1, 2, 5, 10, 20, 50, 100, 200, 500, SECOND, 5 * SECOND, 15 * SECOND, MINUTE, 5 * MINUTE, 15 * MINUTE,
  HOUR, 3 * HOUR, 6 * HOUR, 12 * HOUR, DAY, 2 * DAY, 7 * DAY,
];
const MONTHS = [1, 3, 6, 12, 60, 120, 600, 1200, 6000, 12_000];
const FIRST = Date.parse('0000-01-01T00:00:00.000Z');
const LAST = Date.parse('9999-12-31T23:59:59.999Z');

function label(instant, step) {
  const text = new Date(instant).toISOString();
  if (step >= DAY || instant % DAY === 0) return text.slice(0, 10);
  if (step >= MINUTE) return text.slice(11, 16);
  return step >= SECOND ? text.slice(11, 19) : text.slice(17, 23);
}

function monthTicks(start, end, months) {
  const ticks = [];
  const from = new Date(Math.max(start, FIRST));
  for (let month = Math.floor((from.getUTCFullYear() * 12 + from.getUTCMonth()) / months) * months; ; month += months) {
    const at = new Date(0);
    at.setUTCFullYear(Math.floor(month / 12), month % 12, 1);
    if (+at >= Math.min(end, LAST)) return ticks;
    if (+at >= start) ticks.push({ at: +at, text: at.toISOString().slice(0, months < 12 ? 7 : 4) });
  }
}

/** Some marks of the axis from `start` to `end`, so many at most. */
export function ticksOf(start, end, most) {
  const step = STEPS.find((it) => (end - start) / it <= most);
  if (!step) return monthTicks(start, end, MONTHS.find((it) => (end - start) / (it * 30 * DAY) <= most) ?? MONTHS.at(-1));
  const ticks = [];
  for (let at = Math.ceil(Math.max(start, FIRST) / step) * step; at < Math.min(end, LAST); at += step) ticks.push({ at, text: label(at, step) });
  return ticks;
}
