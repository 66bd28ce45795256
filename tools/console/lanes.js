// A data source's chunks as lanes: what a timeline draws and lists. Instants are milliseconds since 1970.

/** Sub-rows of a lane at most: chunks of one version may overlap, and those beyond lie in the last. */
const MOST_ROWS = 8;

function chunkOf([start, end, lane, core, state, partitions], place) {
  const ends = { startText: start, endText: end, start: Date.parse(start), end: Date.parse(end) };
  return { place, ...ends, lane, core, state, partitions, pieces: [], missing: [] };
}

/** Puts a chunk, later than those before, into the first sub-row in which it overlaps none. */
function putInRow(lane, chunk) {
  let row = lane.rows.find((it) => it.end <= chunk.start);
  if (!row && lane.rows.length < MOST_ROWS) {
    row = { chunks: [], pieces: [], hatched: [], incomplete: [], missing: [], end: -Infinity };
    lane.rows.push(row);
  }
  row ??= lane.rows[MOST_ROWS - 1];
  row.end = Math.max(row.end, chunk.end);
  row.chunks.push(chunk);
  chunk.row = row;
}

const shownLength = (chunk) => chunk.pieces.reduce((sum, it) => sum + it.end - it.start, 0);

function fillRow(row) {
  for (const chunk of row.chunks) {
    row.pieces.push(...chunk.pieces);
    if (chunk.state === 'incomplete') row.incomplete.push(chunk);
    else if (shownLength(chunk) < chunk.end - chunk.start) row.hatched.push(chunk);
  }
}

/** The lanes of a source, the highest version on top, with what `replay` says is visible. */
export function lanesOf(source) {
  const chunks = source.chunks.map(chunkOf);
  for (const [place, start, end, parts] of source.pieces) {
    chunks[place].pieces.push({ chunk: chunks[place], startText: start, endText: end, start: Date.parse(start), end: Date.parse(end), parts });
  }
  const lanes = source.versions.map((version) => ({ version, rows: [] }));
  for (const chunk of chunks) putInRow(lanes[chunk.lane], chunk);
  for (const lane of lanes) lane.rows.forEach(fillRow);
  const start = chunks.reduce((least, it) => Math.min(least, it.start), Infinity);
  const end = chunks.reduce((greatest, it) => Math.max(greatest, it.end), -Infinity);
  return { source: source.source, versions: source.versions, chunks, lanes, start, end };
}

/** Marks what an answer lists as missing; the marks of an earlier answer go. */
export function markMissing(lanes, missing) {
  for (const chunk of lanes.chunks) {
    chunk.missing = [];
    chunk.row.missing = [];
  }
  const byText = new Map(lanes.chunks.map((it) => [`${lanes.versions[it.lane]} ${it.startText}/${it.endText}`, it]));
  for (const slice of missing) {
    const chunk = byText.get(`${slice.ver} ${slice.chunk}`);
    if (!chunk) continue;
    const [startText, endText] = slice.itvl.split('/');
    const it = { chunk, startText, endText, start: Date.parse(startText), end: Date.parse(endText), part: slice.part };
    chunk.missing.push(it);
    chunk.row.missing.push(it);
  }
}

/** The place of the first of a row's ranges, which are in order, that ends after an instant. */
export function firstAfter(ranges, instant) {
  let low = 0;
  let high = ranges.length;
  while (low < high) {
    const middle = (low + high) >> 1;
    if (ranges[middle].end > instant) high = middle;
    else low = middle + 1;
  }
  return low;
}

/** At most so many chunks that overlap a view, lane by lane, and how many there are. */
export function chunksInView(lanes, start, end, most) {
  const found = [];
  let count = 0;
  for (const lane of lanes.lanes) {
    const ofLane = [];
    for (const row of lane.rows) {
      for (let place = firstAfter(row.chunks, start); place < row.chunks.length && row.chunks[place].start < end; place += 1) {
        count += 1;
        if (ofLane.length < most) ofLane.push(row.chunks[place]);
      }
    }
    found.push(...ofLane.sort((a, b) => a.start - b.start).slice(0, most - found.length));
  }
  return { found, count };
}

/** How many of a chunk's core partitions some node has. */
export const corePartitions = (chunk) => chunk.partitions.filter(([number]) => number < chunk.core).length;

/** A chunk's state in words: what a colour says is said here too. */
export function stateWords(chunk) {
  const missing = chunk.missing.length ? `, ${chunk.missing.length === 1 ? 'a partition' : `${chunk.missing.length} slices`} missing` : '';
  if (chunk.state === 'incomplete') return `not complete: ${corePartitions(chunk)} of ${chunk.core} core partitions${missing}`;
  if (chunk.state === 'overshadowed') return `overshadowed${missing}`;
  return (shownLength(chunk) < chunk.end - chunk.start ? 'visible in part' : 'visible') + missing;
}
