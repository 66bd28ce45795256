// One data source's timeline: the canvas with its view, the list of what is in view, and the chunk that is shown whole.

import { AXIS, ROW, coloursOf, drawLanes, labelWidth, placeRows } from './drawing.js';
import { chunksInView, corePartitions, firstAfter, markMissing, stateWords } from './lanes.js';
import { byId, counted, element, markText, shortInterval } from './page.js';

const [MOST_HEIGHT, MOST_LISTED, MOST_PARTITIONS, SHORTEST] = [320, 200, 100, 10];
const LIST_AFTER = 120; // Milliseconds that a view rests.
const [FIRST, LAST] = ['0000-01-01T00:00:00.000Z', '9999-12-31T23:59:59.999Z'].map((it) => Date.parse(it));

export class Timeline {
  /** `owner` has `nodes`, `marks` and `showRows(node, name)`. */
  constructor(lanes, owner) {
    Object.assign(this, { lanes, owner, chosen: null, listed: [], isDrawn: false, timer: null });
    const name = `Timeline of ${lanes.source}`;
    this.canvas = element('canvas', { tabindex: 0, role: 'application', 'aria-roledescription': 'timeline', 'aria-label': name });
    this.list = element('ul', { role: 'listbox', tabindex: 0, 'aria-label': `Chunks of ${lanes.source} in view` });
    this.more = element('p', { class: 'quiet', role: 'status' });
    this.detail = element('div', { class: 'detail', 'aria-live': 'polite' });
    this.range = element('span', { class: 'quiet data range' });
    this.root = element('div', { class: 'timeline', 'data-source': lanes.source }, this.bar(), this.canvas,
      element('div', { class: 'in-view' }, this.more, this.list), this.detail);
    this.view = { start: 0, end: 1, down: 0, width: 0, label: 0, scale: 1 };
    this.view.x = (instant) => this.view.label + (instant - this.view.start) * this.view.scale;
    this.listen();
    this.showWhole();
  }

  bar() {
    const words = (name) => ({ type: 'button', title: name, 'aria-label': `${name}, ${this.lanes.source}` });
    const button = (text, name, work) => element('button', { ...words(name), onclick: work }, text);
    return element('div', { class: 'bar' }, element('h3', {}, this.lanes.source),
      button('◀', 'earlier', () => this.scroll(-0.25)), button('▶', 'later', () => this.scroll(0.25)),
      button('+', 'zoom in', () => this.zoom(0.5)), button('−', 'zoom out', () => this.zoom(2)),
      button('Whole', 'whole', () => this.showWhole()), this.range);
  }

  // What is in view

  /** Sets the view, within a little more than what there is. */
  look(start, end) {
    const whole = this.lanes.end - this.lanes.start;
    const length = Math.min(Math.max(end - start, SHORTEST), whole * 1.04);
    const from = Math.min(Math.max(start, this.lanes.start - whole * 0.02), this.lanes.end + whole * 0.02 - length);
    Object.assign(this.view, { start: from, end: from + length });
    this.draw();
  }

  showWhole() {
    this.view.down = 0;
    this.look(-Infinity, Infinity);
  }

  scroll(part) {
    const by = (this.view.end - this.view.start) * part;
    this.look(this.view.start + by, this.view.end + by);
  }

  zoom(factor, at = (this.view.start + this.view.end) / 2) {
    this.look(at - (at - this.view.start) * factor, at + (this.view.end - at) * factor);
  }

  moveLanes(pixels) {
    this.view.down = Math.min(Math.max(this.view.down + pixels, 0), Math.max(0, this.content - this.height));
    this.draw();
  }

  /** Shows a stretch with some room beside it. */
  lookAt(start, end) {
    this.look(start - (end - start), end + (end - start));
  }

  // Drawing

  measure() {
    this.content = placeRows(this.lanes);
    this.height = Math.min(this.content, MOST_HEIGHT);
    const ratio = window.devicePixelRatio || 1;
    this.canvas.style.height = `${this.height}px`;
    const width = this.canvas.clientWidth || 600;
    this.canvas.width = Math.round(width * ratio);
    this.canvas.height = Math.round(this.height * ratio);
    this.view.width = width;
    this.context = this.canvas.getContext('2d');
    this.context.setTransform(ratio, 0, 0, ratio, 0, 0);
    this.colours = coloursOf(this.canvas);
    this.view.label = labelWidth(this.context, this.lanes.versions);
    this.draw();
  }

  draw() {
    if (this.isDrawn || !this.context) return;
    this.isDrawn = true;
    requestAnimationFrame(() => {
      this.isDrawn = false;
      this.view.scale = (this.view.width - this.view.label) / (this.view.end - this.view.start);
      drawLanes(this.context, this.lanes, this.view, this.colours, this.height, this.chosen);
      this.range.textContent = shortInterval(...[this.view.start, this.view.end].map((it) => instantText(Math.round(it))));
      // The list follows once the view rests.
      clearTimeout(this.timer);
      this.timer = setTimeout(() => this.showList(), LIST_AFTER);
    });
  }

  // The list beside it

  showList() {
    const { found, count } = chunksInView(this.lanes, this.view.start, this.view.end, MOST_LISTED);
    this.listed = found;
    const all = `${counted(count, 'chunk')} in view`;
    this.more.textContent = count > found.length ? `${found.length} of ${all}; zoom in for the others` : all;
    this.list.replaceChildren(...found.map((chunk) => this.item(chunk)));
    this.showChosen();
    performance.mark('timeline');
  }

  item(chunk) {
    const words = `${this.lanes.versions[chunk.lane]}, ${shortInterval(chunk.startText, chunk.endText)}: `;
    return element('li', {
      role: 'option', id: `chunk-${this.lanes.source}-${chunk.place}`, 'aria-selected': 'false',
      'data-version': this.lanes.versions[chunk.lane], 'data-chunk': `${chunk.startText}/${chunk.endText}`, 'data-state': chunk.state,
      'data-pieces': chunk.pieces.map((it) => `${it.startText}/${it.endText}`).join(' '),
      'data-missing': chunk.missing.length ? chunk.missing.map((it) => it.part).join(' ') : null,
      onclick: () => this.choose(chunk, true),
    }, words, element('span', { class: 'word' }, stateWords(chunk)));
  }

  showChosen() {
    const place = this.listed.indexOf(this.chosen);
    [...this.list.children].forEach((it, at) => it.setAttribute('aria-selected', String(at === place)));
    if (place >= 0) this.list.setAttribute('aria-activedescendant', this.list.children[place].id);
    else this.list.removeAttribute('aria-activedescendant');
  }

  choose(chunk, isWhole) {
    this.chosen = chunk;
    this.showChosen();
    this.draw();
    if (isWhole) this.showDetail(chunk);
  }

  moveChoice(by) {
    if (!this.listed.length) return;
    const place = this.listed.indexOf(this.chosen);
    const next = place < 0 ? 0 : Math.min(Math.max(place + by, 0), this.listed.length - 1);
    this.choose(this.listed[next], true);
    this.list.children[next].scrollIntoView({ block: 'nearest' });
  }

  // A chunk in words

  words(chunk) {
    const nodes = [...new Set(chunk.partitions.flatMap(([, held]) => held))].sort((a, b) => a - b);
    const held = nodes.map((node) => `${this.owner.nodes[node]?.name ?? node} at ${markText(this.owner.marks?.[node])}`).join(', ');
    const shown = chunk.pieces.map((it) => shortInterval(it.startText, it.endText)).join('; ');
    const numbers = chunk.partitions.slice(0, 20).map(([number]) => number).join(', ') + (chunk.partitions.length > 20 ? ', …' : '');
    const core = corePartitions(chunk) === chunk.core ? 'all' : corePartitions(chunk);
    return [`${this.lanes.versions[chunk.lane]}, ${shortInterval(chunk.startText, chunk.endText)}: ${stateWords(chunk)}`,
      `partitions ${numbers}; core count ${chunk.core}, of which ${core} are there`, `nodes ${held}`,
      ...(chunk.state === 'visible' ? [`visible ${shown}`] : []),
      ...chunk.missing.map((it) => `missing: partition ${it.part}, ${shortInterval(it.startText, it.endText)}`)];
  }

  showDetail(chunk) {
    const front = `${this.lanes.source}_${chunk.startText}_${chunk.endText}_${this.lanes.versions[chunk.lane]}`;
    const show = (node, number) => () => this.owner.showRows(node, `${front}${number ? `_${number}` : ''}.seg`);
    const button = (node, number) => element('button', { type: 'button', onclick: show(node, number) }, `rows at ${this.owner.nodes[node]?.name}`);
    const item = ([number, held]) => element('li', {}, `partition ${number}${number < chunk.core ? '' : ', not core'}: `,
      ...held.flatMap((node) => [button(node, number), ' ']));
    const parts = chunk.partitions.slice(0, MOST_PARTITIONS).map(item);
    const rest = chunk.partitions.length - parts.length;
    this.detail.replaceChildren(...this.words(chunk).map((line) => element('div', {}, line)),
      element('ul', { class: 'parts' }, ...parts, rest > 0 ? element('li', {}, `and ${rest} more`) : null));
  }

  showMissing(missing) {
    markMissing(this.lanes, missing);
    this.draw();
    if (this.chosen && this.detail.childElementCount) this.showDetail(this.chosen);
  }

  // Pointers and keys

  chunkAt(x, y) {
    if (x < this.view.label || y < AXIS) return null;
    const instant = this.view.start + (x - this.view.label) / this.view.scale;
    const row = this.lanes.lanes.flatMap((it) => it.rows).find((it) => y + this.view.down >= it.top && y + this.view.down < it.top + ROW);
    const chunk = row?.chunks[firstAfter(row.chunks, instant)];
    return chunk && chunk.start <= instant ? chunk : null;
  }

  listen() {
    const on = (name, work, options) => this.canvas.addEventListener(name, work, options);
    on('pointerdown', (event) => this.press(event));
    on('pointermove', (event) => this.point(event));
    on('pointerup', (event) => this.release(event));
    on('pointerleave', () => this.hideHover());
    on('wheel', (event) => this.wheel(event), { passive: false });
    on('keydown', (event) => this.key(event));
    this.list.addEventListener('keydown', (event) => this.listKey(event));
    this.list.addEventListener('focus', () => this.chosen || this.moveChoice(0));
    this.list.addEventListener('click', () => this.list.focus({ preventScroll: true }));
  }

  press(event) {
    if (event.button !== 0) return;
    this.canvas.setPointerCapture(event.pointerId);
    this.dragged = { x: event.offsetX, y: event.offsetY, start: this.view.start, end: this.view.end, down: this.view.down, isMoved: false };
  }

  point(event) {
    const from = this.dragged;
    if (!from) return this.hover(event);
    if (Math.abs(event.offsetX - from.x) + Math.abs(event.offsetY - from.y) > 3) from.isMoved = true;
    if (!from.isMoved) return undefined;
    this.canvas.classList.add('dragged');
    this.hideHover();
    const by = (from.x - event.offsetX) / this.view.scale;
    this.look(from.start + by, from.end + by);
    return this.moveLanes(from.down + from.y - event.offsetY - this.view.down);
  }

  release(event) {
    const isClick = this.dragged && !this.dragged.isMoved;
    this.dragged = null;
    this.canvas.classList.remove('dragged');
    const chunk = isClick && this.chunkAt(event.offsetX, event.offsetY);
    if (chunk) this.choose(chunk, true);
  }

  hover(event) {
    const chunk = this.chunkAt(event.offsetX, event.offsetY);
    if (!chunk) return this.hideHover();
    const box = byId('hover');
    if (chunk !== this.hovered || box.hidden) {
      box.textContent = this.words(chunk).join('\n');
      this.hovered = chunk;
      box.hidden = false;
    }
    const left = Math.min(event.clientX + 14, window.innerWidth - box.offsetWidth - 8);
    const isBelow = event.clientY + 18 + box.offsetHeight < window.innerHeight;
    box.style.left = `${left}px`;
    box.style.top = `${isBelow ? event.clientY + 18 : event.clientY - box.offsetHeight - 10}px`;
    return undefined;
  }

  hideHover() {
    byId('hover').hidden = true;
    this.hovered = null;
  }

  wheel(event) {
    event.preventDefault();
    this.hideHover();
    const lines = event.deltaMode === 1 ? 16 : 1;
    if (event.shiftKey || Math.abs(event.deltaX) > Math.abs(event.deltaY)) {
      this.scroll(((event.deltaX || event.deltaY) * lines) / 1000);
    } else {
      this.zoom(Math.exp((event.deltaY * lines) / 400), this.view.start + Math.max(0, event.offsetX - this.view.label) / this.view.scale);
    }
  }

  key(event) {
    const work = {
      ArrowLeft: () => this.scroll(-0.1), ArrowRight: () => this.scroll(0.1), ArrowUp: () => this.moveLanes(-ROW), ArrowDown: () => this.moveLanes(ROW),
      PageUp: () => this.scroll(-0.9), PageDown: () => this.scroll(0.9), '+': () => this.zoom(0.7), '=': () => this.zoom(0.7), '-': () => this.zoom(1.4),
      0: () => this.showWhole(), Home: () => this.look(this.lanes.start, this.lanes.start + this.view.end - this.view.start),
      End: () => this.look(this.lanes.end - (this.view.end - this.view.start), this.lanes.end),
    }[event.key];
    if (!work || event.ctrlKey || event.metaKey || event.altKey) return;
    event.preventDefault();
    work();
  }

  listKey(event) {
    const by = { ArrowUp: -1, ArrowDown: 1, PageUp: -10, PageDown: 10, Home: -Infinity, End: Infinity }[event.key];
    if (by === undefined && event.key !== 'Enter') return;
    event.preventDefault();
    if (by === undefined) this.lookAt(this.chosen?.start ?? this.view.start, this.chosen?.end ?? this.view.end);
    else this.moveChoice(by);
  }
}

/** An instant of a view, which may go a little beyond the years that there are. */
function instantText(ms) {
  return new Date(Math.min(Math.max(ms, FIRST), LAST)).toISOString();
}
