// A query: its text, what the broker answers, and what of it is missing.

import { chartOf } from './chart.js';
import { markText, placeOfKey, setText, startEditor } from './editor.js';
import { byId, counted, element, request, shortInterval, table } from './page.js';

const MOST_ROWS = 1000;

const REFUSALS = {
  Q1: 'it is no JSON', Q2: 'it is no object with `queryType` `timeseries` or `groupBy`', Q3: 'it has another shape than the field may have',
  Q4: 'a text of `intervals` is no interval', Q5: 'a limit is passed', Q6: 'an output name stands twice', Q9: 'the broker is out of memory',
};
// The field in which these faults lie, where there is only one.
const FIELDS = { Q2: 'queryType', Q4: 'intervals' };

function showRefusal(answer) {
  const { error, field = FIELDS[error] } = answer.refused;
  const place = field && placeOfKey(byId('text').value, field);
  const where = field ? `\`${field}\`${place ? ', marked above' : ', which the query has not'}: ` : '';
  byId('refusal').textContent = `${answer.status} ${error ?? ''}: ${where}${REFUSALS[error] ?? 'refused'}`;
  byId('refusal').dataset.field = field ?? '';
  markText(place || null);
  if (place) {
    byId('text').focus();
    byId('text').setSelectionRange(...place);
  }
  byId('answer').replaceChildren(element('p', { class: 'fault' }, `Refused after ${answer.milliseconds} ms.`));
}

function missingList(answer, owner) {
  const item = (slice) => element('li', { 'data-missing': JSON.stringify(slice) },
    `${slice.ver}, ${shortInterval(...slice.itvl.split('/'))}, partition ${slice.part} `,
    element('button', { type: 'button', onclick: () => owner.lookAt(answer.source, slice) }, 'in the timeline'));
  return [element('h3', { class: 'fault' }, `503: ${counted(answer.missing.length, 'segment slice')} missing`),
    element('p', {}, 'No node gave these; the timeline has them in a frame with a cross.'),
    element('ul', { class: 'missing-list' }, ...answer.missing.map(item))];
}

function answerTable(answer) {
  const { dimensions, metrics, rows } = answer.table;
  const first = rows.length > MOST_ROWS ? `, of which these are the first ${MOST_ROWS}` : '';
  const caption = `${answer.missing ? 'Partial: without what is missing. ' : ''}${counted(rows.length, 'row')}${first}`;
  const [kind, name] = answer.missing ? ['scrolls partial', 'Partial rows'] : ['scrolls', 'Rows'];
  const areMetrics = [false, ...dimensions.map(() => false), ...metrics.map(() => true)];
  return element('div', { class: kind, tabindex: 0, role: 'region', 'aria-label': name },
    table(caption, ['timestamp', ...dimensions, ...metrics], areMetrics, rows.slice(0, MOST_ROWS)));
}

function granularityOf(text) {
  const given = JSON.parse(text).granularity;
  return typeof given === 'string' ? given.toLowerCase() : 'all';
}

function showAnswer(answer, text, owner) {
  markText(null);
  byId('answer').replaceChildren(
    element('p', {}, element('b', {}, answer.missing ? 'Not complete' : 'Complete'), `, after ${answer.milliseconds.toLocaleString('en')} ms`),
    ...(answer.missing ? missingList(answer, owner) : []), answerTable(answer),
    chartOf(answer.table, granularityOf(text), Boolean(answer.missing)) ?? '');
  owner.showMissing(answer.source, answer.missing ?? []);
}

/** Counts seconds in the answer's place until there is one: a node that is silent takes 30 of them. */
function waiting() {
  const line = element('p', { class: 'none' }, 'asking');
  byId('answer').replaceChildren(line);
  byId('answer').setAttribute('aria-busy', 'true');
  const began = performance.now();
  return setInterval(() => {
    line.textContent = `asking, ${Math.round((performance.now() - began) / 1000)} s; a silent node is waited for 30 s`;
  }, 1000);
}

async function ask(owner) {
  const button = byId('query').querySelector('button');
  if (button.disabled) return;
  const text = byId('text').value;
  button.disabled = true;
  byId('refusal').textContent = '';
  markText(null);
  const timer = waiting();
  try {
    owner.countConnections(1);
    const answer = await request(`/api/query?broker=${owner.broker}`, text);
    if (answer.refused) showRefusal(answer);
    else showAnswer(answer, text, owner);
  } catch (fault) {
    byId('answer').replaceChildren(element('p', { class: 'fault' }, fault.message));
  } finally {
    clearInterval(timer);
    byId('answer').removeAttribute('aria-busy');
    button.disabled = false;
  }
}

/** `owner` has `broker`, `countConnections`, `showMissing(source, missing)` and `lookAt(source, slice)`. */
export function startQuery(examples, owner) {
  const take = () => {
    const chosen = examples[byId('example').selectedIndex];
    if (!chosen) return;
    setText(chosen.text);
    byId('refusal').textContent = '';
  };
  byId('example').replaceChildren(...examples.map((it) => element('option', {}, it.name)), element('option', { value: '' }, 'none: a text of your own'));
  byId('text').addEventListener('input', () => { byId('example').value = ''; });
  byId('example').addEventListener('change', take);
  byId('query').addEventListener('submit', (event) => {
    event.preventDefault();
    ask(owner);
  });
  byId('text').addEventListener('keydown', (event) => {
    if (event.key !== 'Enter' || !(event.ctrlKey || event.metaKey)) return;
    event.preventDefault();
    ask(owner);
  });
  startEditor();
  take();
}
