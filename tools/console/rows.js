// Segment files: those of a node's folder, or one that is dropped on the page, as rows.

import { byId, counted, element, request, table } from './page.js';

const [MOST_FILE, MOST_NAMES] = [16_777_216, 2000];

function showSegment(it, more) {
  const columns = ['time', ...it.dimensions, ...it.metrics];
  const metrics = [false, ...it.dimensions.map(() => false), ...it.metrics.map(() => true)];
  const last = it.first + it.rows.length;
  const pages = [[it.first - 500, 'Earlier rows', it.first > 0], [last, 'Later rows', last < it.count]]
    .filter(([, , isThere]) => isThere).map(([first, text]) => element('button', { type: 'button', onclick: () => more(Math.max(0, first)) }, text));
  const shown = it.count > it.rows.length ? `rows ${it.first + 1} to ${last} of ${it.count.toLocaleString('en')}` : counted(it.count, 'row');
  byId('rows').replaceChildren(element('div', { class: 'scrolls', tabindex: 0, role: 'region', 'aria-label': 'Rows of the segment' },
    table(`${it.identifier}; core ${it.core}, size ${it.size}; ${shown}`, columns, metrics, it.rows)), ...pages);
}

/** Shows what `load(first)` gives, and what it says where it refuses. */
async function show(load, first = 0) {
  try {
    showSegment(await load(first), (from) => show(load, from));
  } catch (fault) {
    byId('rows').replaceChildren(element('p', { class: 'fault', role: 'alert' }, fault.message));
  }
}

export function showNodeFile(node, name) {
  byId('file-node').value = node;
  byId('file-name').value = name;
  byId('rows').scrollIntoView({ block: 'center' });
  return show((first) => request(`/api/file?node=${node}&name=${encodeURIComponent(name)}&first=${first}`));
}

function showOwnFile(file) {
  if (!file) return undefined;
  if (file.size > MOST_FILE) return show(() => Promise.reject(new Error(`${file.name}: F5: more bytes than a segment file may have`)));
  return show((first) => request(`/api/show?first=${first}`, file));
}

async function listFiles() {
  try {
    const { files } = await request(`/api/files?node=${byId('file-node').value}`);
    byId('file-names').replaceChildren(...files.slice(0, MOST_NAMES).map((name) => element('option', { value: name })));
    if (!files.includes(byId('file-name').value)) byId('file-name').value = files[0] ?? '';
  } catch (fault) {
    byId('rows').replaceChildren(element('p', { class: 'fault' }, fault.message));
  }
}

function takeDrops() {
  const body = document.body;
  body.addEventListener('dragover', (event) => {
    event.preventDefault();
    body.classList.add('dropping');
  });
  body.addEventListener('dragleave', () => body.classList.remove('dropping'));
  body.addEventListener('drop', (event) => {
    event.preventDefault();
    body.classList.remove('dropping');
    showOwnFile(event.dataTransfer.files[0]);
  });
}

export function startRows(nodes) {
  byId('file-node').replaceChildren(...nodes.map((it, place) => element('option', { value: place }, it.name)));
  byId('file-node').addEventListener('change', listFiles);
  byId('own-file').addEventListener('change', () => showOwnFile(byId('own-file').files[0]));
  byId('pick').addEventListener('submit', (event) => {
    event.preventDefault();
    showNodeFile(byId('file-node').value, byId('file-name').value);
  });
  takeDrops();
  listFiles();
}
