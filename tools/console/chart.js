// Charts of an answer, as SVG: lines for `timeseries`, bars for `groupBy`.

import { element, shortInstant } from './page.js';

const LENGTHS = { second: 1000, minute: 60_000, hour: 3_600_000, day: 86_400_000 };
const [WIDTH, HEIGHT, LEFT, BOTTOM, TOP] = [640, 220, 80, 26, 10];
const [MOST_DOTS, MOST_BARS, BAR, NAMES] = [300, 40, 20, 210];

function svg(name, attributes, ...children) {
  const it = document.createElementNS('http://www.w3.org/2000/svg', name);
  for (const [key, value] of Object.entries(attributes)) it.setAttribute(key, value);
  it.append(...children);
  return it;
}

const short = (number) => new Intl.NumberFormat('en', Math.abs(number) < 1e6 ? {} : { notation: 'compact', maximumFractionDigits: 2 }).format(number);

/** The least and the greatest of numbers, and 0, which a bar's length and a line's height begin at. */
const reach = (numbers) => [Math.min(0, ...numbers), Math.max(0, ...numbers)];

function gridLines(low, high, y) {
  return [low, (low + high) / 2, high].flatMap((value) => [
    svg('line', { class: 'grid', x1: LEFT, x2: WIDTH, y1: y(value), y2: y(value) }),
    svg('text', { class: 'quiet', x: LEFT - 6, y: y(value) + 4, 'text-anchor': 'end' }, short(value))]);
}

/** A line through the points, cut where a bucket has no row. */
function linePath(points, length) {
  return points.map((it, place) => {
    const isCut = place === 0 || (length && it.at - points[place - 1].at > length);
    return `${isCut ? 'M' : 'L'}${it.x.toFixed(1)} ${it.y.toFixed(1)}`;
  }).join('');
}

function lineChart(rows, column, granularity) {
  const held = rows.filter((row) => row[column] !== null)
    .map((row) => ({ text: row[0], at: Date.parse(row[0]), value: Number(row[column]), exact: row[column] }));
  const [low, high] = reach(held.map((it) => it.value));
  const [first, last] = [held[0].at, held.at(-1).at];
  const y = (value) => TOP + (HEIGHT - TOP - BOTTOM) * (1 - (value - low) / (high - low || 1));
  const points = held.map((it) => ({ ...it, x: LEFT + 8 + ((WIDTH - LEFT - 16) * (it.at - first)) / (last - first || 1), y: y(it.value) }));
  const dot = (it) => svg('circle', { class: 'point', cx: it.x, cy: it.y, r: 3 }, svg('title', {}, `${shortInstant(it.text)}: ${it.exact}`));
  return svg('svg', { viewBox: `0 0 ${WIDTH} ${HEIGHT}`, role: 'img' }, ...gridLines(low, high, y),
    svg('path', { class: 'line', d: linePath(points, LENGTHS[granularity]) }), ...(points.length > MOST_DOTS ? [] : points.map(dot)),
    svg('text', { class: 'quiet', x: LEFT, y: HEIGHT - 8 }, shortInstant(held[0].text)),
    svg('text', { class: 'quiet', x: WIDTH, y: HEIGHT - 8, 'text-anchor': 'end' }, shortInstant(held.at(-1).text)));
}

const cut = (text, most) => (text.length > most ? `${text.slice(0, most - 1)}…` : text);

function barChart(rows, dimensions, column) {
  const shown = rows.slice(0, MOST_BARS);
  const [low, high] = reach(shown.map((row) => Number(row[column] ?? 0)));
  const room = WIDTH - NAMES - 90;
  const x = (value) => NAMES + (room * (value - low)) / (high - low || 1);
  const severalBuckets = shown.some((row) => row[0] !== shown[0][0]);
  const bars = shown.flatMap((row, place) => {
    const top = place * BAR + 2;
    const value = Number(row[column] ?? 0);
    const names = [...(severalBuckets ? [shortInstant(row[0])] : []), ...row.slice(1, 1 + dimensions).map((it) => it ?? 'null')].join(' · ');
    return [svg('text', { x: NAMES - 6, y: top + 13, 'text-anchor': 'end' }, cut(names, 32)),
      svg('rect', { class: 'bar', x: Math.min(x(0), x(value)), y: top, width: Math.max(Math.abs(x(value) - x(0)), 1), height: BAR - 5 }),
      svg('text', { class: 'quiet', x: Math.max(x(0), x(value)) + 5, y: top + 13 }, row[column] ?? 'null')];
  });
  return svg('svg', { viewBox: `0 0 ${WIDTH} ${shown.length * BAR + 4}`, role: 'img' }, ...bars);
}

function drawn(table, column, granularity) {
  const chart = table.kind === 'timeseries' ? lineChart(table.rows, column, granularity) : barChart(table.rows, table.dimensions.length, column);
  const kind = table.kind === 'timeseries' ? 'Lines' : 'Bars';
  chart.setAttribute('aria-label', `${kind} of ${table.metrics[column - 1 - table.dimensions.length]}; the table has the numbers`);
  return chart;
}

/** A chart of one aggregator at a time, where there is more than one row and a number; null otherwise. */
export function chartOf(table, granularity, isPartial) {
  const first = 1 + table.dimensions.length;
  const places = table.metrics.map((_, place) => first + place).filter((column) => table.rows.some((row) => row[column] !== null));
  if (table.rows.length < 2 || !places.length) return null;
  const holder = element('div', {}, drawn(table, places[0], granularity));
  const choice = element('select', { onchange: () => holder.replaceChildren(drawn(table, Number(choice.value), granularity)) },
    ...places.map((column) => element('option', { value: column }, table.metrics[column - first])));
  const note = table.kind === 'groupBy' && table.rows.length > MOST_BARS ? ` (the first ${MOST_BARS} of ${table.rows.length} rows)` : '';
  const kind = isPartial ? ', partial' : '';
  return element('figure', {}, element('figcaption', {}, element('label', {}, 'Chart of ', choice), kind, note), holder);
}
