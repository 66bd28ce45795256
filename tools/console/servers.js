// The table of servers that have a status address: what each says of itself, and a broker of its nodes.

import { byId, element } from './page.js';

const shown = (number) => Math.round(number).toLocaleString('en');

/** Numbers by a name, as `200: 1,204; 503: 3`. */
const listed = (numbers) => Object.entries(numbers).sort().map(([name, number]) => `${name}: ${shown(number)}`).join('; ');

/** What a broker says of a node. */
function followed(it) {
  const heard = it.heard === null ? 'never heard of' : `heard of ${shown(it.heard)} s ago`;
  return element('div', {}, `${it.node}: ${heard}; ${listed(it.exchanges) || 'no exchange'}`);
}

function details(server) {
  if (server.nodes) return server.nodes.map(followed);
  return [`incarnation ${server.incarnation}; ${shown(server.segments)} segments, ${shown(server.rows)} rows, ${shown(server.file_bytes)} bytes`];
}

function serverRow(server) {
  const cells = server.answers
    ? [['✓ answers'], [shown(server.connections)], [listed(server.statuses)], details(server)]
    : [[`✗ no answer: ${server.fault}`], ['?'], ['?'], ['?']];
  const kinds = [server.answers ? '' : 'fault', 'number data', 'data', 'data'];
  return element('tr', { 'data-server': server.server }, element('th', { scope: 'row' }, server.server),
    element('td', { class: 'data' }, server.address), ...cells.map((inner, place) => element('td', { class: kinds[place] }, ...inner)));
}

/** Shows what the status addresses say; the section is hidden where the config has none. */
export function showServers(servers) {
  byId('servers-section').hidden = servers.length === 0;
  const names = ['server', 'status address', 'health', 'connections', 'answers by status', 'what it holds, or hears of its nodes'];
  const heads = names.map((name) => element('th', { scope: 'col', class: name === 'connections' ? 'number' : null }, name));
  byId('servers').replaceChildren(element('table', {}, element('thead', {}, element('tr', {}, ...heads)),
    element('tbody', {}, ...servers.map(serverRow))));
}
