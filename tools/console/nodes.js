// The table of nodes: what each answers itself, and how far the mark of each broker is from the node's own.

import { byId, counted, element, markText } from './page.js';

/** How far a broker's mark is from the node's. */
function distance(node, mark) {
  if (!mark) return 'never synced';
  if (!node.answers) return markText(mark);
  if (mark.incarnation !== node.mark.incarnation) return `${markText(mark)}, another incarnation`;
  const changes = Number(BigInt(node.mark.count) - BigInt(mark.count));
  if (changes === 0) return `${markText(mark)}, the same`;
  return `${markText(mark)}, ${changes > 0 ? `stale by ${counted(changes, 'change')}` : `later by ${counted(-changes, 'change')}`}`;
}

function nodeRow(node, place, brokers) {
  const cell = (text, kind = 'data') => element('td', { class: kind }, text);
  const marks = brokers.map((broker) => (broker.marks ? cell(distance(node, broker.marks[place])) : cell(`no answer: ${broker.fault}`, 'fault')));
  return element('tr', { 'data-node': node.name }, element('th', { scope: 'row' }, node.name), cell(node.address),
    cell(node.answers ? '✓ answers' : `✗ no answer: ${node.fault}`, node.answers ? '' : 'fault'),
    cell(node.answers ? markText(node.mark) : '?'), cell(node.answers ? node.segments.toLocaleString('en') : '?', 'number data'), ...marks);
}

/** Shows what is known of the nodes. `brokers` is empty until brokers were looked at. */
export function showNodes(nodes, brokers) {
  const names = ['node', 'address', 'health', 'mark (incarnation, count)', 'segments', ...brokers.map((it) => `mark at broker ${it.address}`)];
  const heads = names.map((name) => element('th', { scope: 'col', class: name === 'segments' ? 'number' : null }, name));
  byId('nodes').replaceChildren(element('table', {}, element('thead', {}, element('tr', {}, ...heads)),
    element('tbody', {}, ...nodes.map((node, place) => nodeRow(node, place, brokers)))));
}
