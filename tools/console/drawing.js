// Draws lanes on a canvas. What is narrower than a pixel is drawn together, one column for all that lies in it.

import { ticksOf } from './axis.js';
import { corePartitions, firstAfter } from './lanes.js';

/** Pixels: a sub-row, the room between lanes, the axis; the versions' names have `view.label`. */
export const [ROW, GAP, AXIS] = [24, 8, 22];
const [LEAST_LABEL, MOST_LABEL] = [60, 190];
const NAME_FONT = '12px "DejaVu Sans Mono", ui-monospace, monospace';

/** The colours of the page's style, anew where light and dark change. */
export function coloursOf(canvas) {
  const style = getComputedStyle(canvas);
  const names = ['ground', 'raised', 'text', 'quiet', 'grid', 'line', 'visible', 'on-visible', 'hatch', 'outline', 'missing', 'focus'];
  const colours = Object.fromEntries(names.map((name) => [name, style.getPropertyValue(`--${name}`).trim()]));
  const tile = document.createElement('canvas');
  tile.width = 8;
  tile.height = 8;
  const context = tile.getContext('2d');
  context.strokeStyle = colours.hatch;
  context.lineWidth = 1.4;
  for (const shift of [-8, 0, 8]) {
    context.moveTo(shift, 8);
    context.lineTo(shift + 8, 0);
  }
  context.stroke();
  return { ...colours, tile };
}

/** Calls `wide` with each range of a row that is a pixel or more, and `column` once for each pixel that narrower ones lie in. */
function eachRange(ranges, view, wide, column) {
  let place = firstAfter(ranges, view.start);
  while (place < ranges.length && ranges[place].start < view.end) {
    const range = ranges[place];
    const left = Math.max(view.label, view.x(range.start));
    const right = Math.min(view.width, view.x(range.end));
    if (right - left >= 1.5) {
      wide(left, right - left, range);
      place += 1;
    } else {
      // On to the first that reaches beyond this pixel, so that a frame costs what its pixels cost, however many chunks there are.
      column(Math.floor(left));
      place = Math.max(place + 1, firstAfter(ranges, view.start + (Math.floor(left) + 1 - view.label) / view.scale));
    }
  }
}

function fillRanges(context, ranges, view, top, style) {
  context.fillStyle = style;
  context.beginPath();
  // A pixel between neighbours that are wide enough shows where one ends.
  eachRange(ranges, view, (left, width) => context.rect(left, top, width > 5 ? width - 1 : width, ROW), (left) => context.rect(left, top, 1, ROW));
  context.fill();
}

/** Frames of ranges; of columns the upper and the lower end alone. */
function frameRanges(context, ranges, view, top, colour, width, dashes) {
  context.strokeStyle = colour;
  context.fillStyle = colour;
  context.lineWidth = width;
  context.setLineDash(dashes);
  context.beginPath();
  const inset = width / 2;
  eachRange(ranges, view, (left, wide) => context.rect(left + inset, top + inset, Math.max(wide - width - 1, 0.5), ROW - width), (left) => {
    context.fillRect(left, top, 1, ROW / 4);
    context.fillRect(left, top + ROW - ROW / 4, 1, ROW / 4);
  });
  context.stroke();
  context.setLineDash([]);
}

/** Crosses in the middle of what is missing, so that it shows without its colour. */
function crossRanges(context, ranges, view, top, colour) {
  context.strokeStyle = colour;
  context.lineWidth = 2;
  context.beginPath();
  eachRange(ranges, view, (left, width) => {
    const half = Math.min(6, width / 2);
    const [x, y] = [left + width / 2, top + ROW / 2];
    context.moveTo(x - half, y - half);
    context.lineTo(x + half, y + half);
    context.moveTo(x - half, y + half);
    context.lineTo(x + half, y - half);
  }, () => {});
  context.stroke();
}

function writeRanges(context, ranges, view, top, colour, ground, words) {
  context.font = '12px system-ui, "DejaVu Sans", sans-serif';
  eachRange(ranges, view, (left, width, range) => {
    if (width < 34) return;
    const text = words(range);
    const room = context.measureText(text).width + 10;
    if (room > width) return;
    if (ground) {
      context.fillStyle = ground;
      context.fillRect(left + 3, top + 4, room - 4, ROW - 8);
    }
    context.fillStyle = colour;
    context.fillText(text, left + 5, top + ROW / 2 + 4);
  }, () => {});
}

const partitionWords = (count) => `${count} partition${count === 1 ? '' : 's'}`;

function drawRow(context, row, view, top, colours) {
  fillRanges(context, row.hatched, view, top, context.createPattern(colours.tile, 'repeat'));
  frameRanges(context, row.hatched, view, top, colours.hatch, 1, []);
  writeRanges(context, row.hatched.filter((it) => !it.pieces.length), view, top, colours.text, colours.ground, () => 'overshadowed');
  fillRanges(context, row.pieces, view, top, colours.visible);
  writeRanges(context, row.pieces, view, top, colours['on-visible'], null, (it) => partitionWords(it.parts.length));
  frameRanges(context, row.incomplete, view, top, colours.outline, 2, [5, 3]);
  writeRanges(context, row.incomplete, view, top, colours.text, null, (it) => `${corePartitions(it)} of ${it.core} core`);
  if (row.missing.length) {
    fillRanges(context, row.missing, view, top, colours.ground);
    frameRanges(context, row.missing, view, top, colours.missing, 3, []);
    crossRanges(context, row.missing, view, top, colours.missing);
  }
}

function drawAxis(context, view, colours, height) {
  context.font = '11px system-ui, "DejaVu Sans", sans-serif';
  context.lineWidth = 1;
  let written = view.label;
  for (const { at, text } of ticksOf(view.start, view.end, Math.max(2, (view.width - view.label) / 95))) {
    const x = Math.round(view.x(at)) + 0.5;
    context.strokeStyle = colours.grid;
    context.beginPath();
    context.moveTo(x, AXIS - 4);
    context.lineTo(x, height);
    context.stroke();
    const right = x + 3 + context.measureText(text).width;
    if (x < written || right > view.width) continue;
    context.fillStyle = colours.quiet;
    context.fillText(text, x + 3, 14);
    written = right + 4;
  }
}

function frameChunk(context, chunk, view, top, colour) {
  const left = Math.max(view.label, view.x(chunk.start));
  const right = Math.min(view.width, view.x(chunk.end));
  if (right <= left) return;
  context.strokeStyle = colour;
  context.lineWidth = 2;
  context.strokeRect(left - 2, top - 3, Math.max(right - left, 1) + 3, ROW + 6);
}

/** How wide the names of versions are. */
export function labelWidth(context, versions) {
  context.font = NAME_FONT;
  const widest = versions.reduce((width, it) => Math.max(width, context.measureText(it).width), 0);
  return Math.min(Math.max(widest + 18, LEAST_LABEL), MOST_LABEL);
}

/** The tops of the sub-rows of all lanes, from the axis down. */
export function placeRows(lanes) {
  let top = AXIS + GAP / 2;
  for (const lane of lanes.lanes) {
    lane.top = top;
    for (const row of lane.rows) {
      row.top = top;
      top += ROW + 2;
    }
    top += GAP;
  }
  return top;
}

/** Draws what lies in the view. `chosen` is the chunk that is pointed at or has the focus. */
export function drawLanes(context, lanes, view, colours, height, chosen) {
  context.fillStyle = colours.ground;
  context.fillRect(0, 0, view.width, height);
  drawAxis(context, view, colours, height);
  context.save();
  context.beginPath();
  context.rect(0, AXIS, view.width, height - AXIS);
  context.clip();
  for (const lane of lanes.lanes) {
    for (const row of lane.rows) {
      const top = row.top - view.down;
      if (top + ROW > AXIS && top < height) drawRow(context, row, view, top, colours);
    }
    context.font = NAME_FONT;
    context.fillStyle = colours.text;
    context.fillText(lane.version.length > 24 ? `${lane.version.slice(0, 23)}…` : lane.version, 8, lane.top - view.down + ROW / 2 + 4);
  }
  if (chosen) frameChunk(context, chosen, view, chosen.row.top - view.down, colours.focus);
  context.restore();
}
