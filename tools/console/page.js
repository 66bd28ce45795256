// What all parts of the page use: elements, requests, and how instants and marks are written.

/** An element with attributes and children; texts become text nodes, and nothing is read as markup. */
export function element(name, attributes = {}, ...children) {
  const it = document.createElement(name);
  for (const [key, value] of Object.entries(attributes)) {
    if (key.startsWith('on')) it.addEventListener(key.slice(2), value);
    else if (value !== undefined && value !== null && value !== false) it.setAttribute(key, value === true ? '' : value);
  }
  it.append(...children.filter((child) => child !== null && child !== undefined));
  return it;
}

export const byId = (id) => document.getElementById(id);

/** The JSON that the console answers. An `Error` with its line where it refuses or does not answer. */
export async function request(path, body) {
  let response;
  try {
    response = await fetch(path, body === undefined ? {} : { method: 'POST', body });
  } catch {
    throw new Error('tools/console.py does not answer');
  }
  const answer = await response.json();
  if (!response.ok) throw new Error(answer.fault);
  return answer;
}

/** `2024-05-01`, `2024-05-01T10:00` or longer: an instant without the zeros at its end. */
export function shortInstant(text) {
  return text.replace(/(:00)?(\.000)Z$/, '').replace(/T00:00$/, '');
}

export function shortInterval(start, end) {
  const [from, to] = [shortInstant(start), shortInstant(end)];
  const sameDay = start.slice(0, 10) === end.slice(0, 10);
  return `${from} to ${sameDay ? to.slice(11) || to : to}`;
}

/** A mark as (incarnation, count). */
export const markText = (mark) => (mark ? `(${mark.incarnation}, ${mark.count})` : 'never synced');

export const counted = (count, word) => `${count.toLocaleString('en')} ${word}${count === 1 ? '' : 's'}`;

/** A table of texts and nulls; `metrics` says of a column whether it holds numbers. */
export function table(caption, columns, metrics, rows) {
  const cells = (row) => row.map((value, place) => (value === null
    ? element('td', { class: 'null' }, 'null')
    : element('td', { class: metrics[place] ? 'number data' : 'data' }, value)));
  const heads = columns.map((name, place) => element('th', { scope: 'col', class: metrics[place] ? 'number' : null }, name));
  return element('table', {}, element('caption', {}, caption), element('thead', {}, element('tr', {}, ...heads)),
    element('tbody', {}, ...rows.map((row) => element('tr', {}, ...cells(row)))));
}
