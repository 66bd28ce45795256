// The query's text, with a field marked in it.

import { byId } from './page.js';

/** The place after a JSON text's string that begins at `from`. */
function afterString(text, from) {
  let at = from + 1;
  while (at < text.length && text[at] !== '"') at += text[at] === '\\' ? 2 : 1;
  return at + 1;
}

/** The place after the value that begins at `from`: before the `,` or `}` that follows it, without the blanks between. */
function afterValue(text, from) {
  let depth = 0;
  let at = from;
  while (at < text.length) {
    if (depth === 0 && /[,\]}]/.test(text[at])) break;
    if (text[at] === '"') at = afterString(text, at);
    else {
      if (/[[{]/.test(text[at])) depth += 1;
      if (/[\]}]/.test(text[at])) depth -= 1;
      at += 1;
    }
  }
  return from + text.slice(from, at).trimEnd().length;
}

/** Where the last key of that name, right in a JSON text's object, begins, and where its value ends; null where there is none. */
export function placeOfKey(text, key) {
  let found = null;
  let at = text.indexOf('{') + 1;
  while (at > 0 && at < text.length) {
    const start = text.indexOf('"', at);
    if (start < 0) break;
    const end = afterString(text, start);
    const colon = text.indexOf(':', end);
    if (colon < 0) break;
    const valueEnd = afterValue(text, colon + 1);
    let name = null;
    try { name = JSON.parse(text.slice(start, end)); } catch { /* No string: then no key either. */ }
    if (name === key) found = [start, valueEnd];
    at = valueEnd + 1;
  }
  return found;
}

/** Marks a stretch of the editor's text, or nothing. */
export function markText(place) {
  const [editor, marks] = [byId('text'), byId('marks')];
  const text = editor.value;
  if (place) {
    const mark = document.createElement('mark');
    mark.textContent = text.slice(...place);
    marks.replaceChildren(text.slice(0, place[0]), mark, `${text.slice(place[1])}\n`);
    editor.setAttribute('aria-invalid', 'true');
  } else {
    marks.replaceChildren();
    editor.removeAttribute('aria-invalid');
  }
  marks.scrollTop = editor.scrollTop;
}

/** Takes the mark of an earlier text away, and gives the editor as many lines as the text. */
function fitText() {
  markText(null);
  byId('text').rows = Math.min(Math.max(byId('text').value.split('\n').length + 1, 10), 26);
}

export function setText(text) {
  byId('text').value = text;
  fitText();
}

/** Keeps the mark under the text where that scrolls. */
export function startEditor() {
  byId('text').addEventListener('scroll', () => { byId('marks').scrollTop = byId('text').scrollTop; });
  byId('text').addEventListener('input', fitText);
}
