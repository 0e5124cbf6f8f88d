// A text area with colours and line numbers, and with the piece at a place marked. The colours lie behind the text, which is transparent; long lines
// are wrapped in both alike.
import {pieces} from './colours.js';
import {element} from './texts.js';

// A longer text has no colours: they would be drawn anew with each key.
const mostColoured = 100000;

// The pieces of each line; a line feed ends the piece that it stands in.
function linesOf(text) {
  const lines = [[]], all = text.length > mostColoured ? [{text, at: 0, kind: ''}] : pieces(text);
  for (const {text: whole, at, kind} of all) {
    let from = at;
    whole.split('\n').forEach((part, i) => {
      if (i > 0) lines.push([]);
      if (part) lines.at(-1).push({text: part, at: from, kind});
      from += part.length + 1;
    });
  }
  return lines;
}

export class Editor {
  #text = element('textarea', '');
  #colours = element('div', 'colours');
  #place = null;

  // The editor stands in a box; the id of its text area is that of the box with '-text' behind it.
  constructor(box, onEdit) {
    this.#text.id = `${box.id}-text`;
    Object.assign(this.#text, {spellcheck: false, autocapitalize: 'off', autocomplete: 'off'});
    this.#colours.setAttribute('aria-hidden', 'true');
    box.append(element('div', 'field', this.#colours, this.#text));
    this.#text.addEventListener('input', () => { this.mark(null); onEdit(); });
    this.#draw();
  }

  get text() { return this.#text.value; }

  set text(text) {
    this.#text.value = text;
    this.mark(null);
  }

  // Marks the piece at an index; null takes the mark away.
  mark(index) {
    this.#place = index;
    if (index === null) {
      this.#text.removeAttribute('aria-invalid');
      this.#text.removeAttribute('aria-describedby');
    } else {
      this.#text.setAttribute('aria-invalid', 'true');
      this.#text.setAttribute('aria-describedby', 'fault-told fault-help');
    }
    this.#draw();
  }

  goTo(index) {
    this.#text.focus({preventScroll: true});
    this.#text.setSelectionRange(index, index);
    this.#colours.children[this.#lineAt(index)].scrollIntoView({block: 'nearest'});
  }

  #lineAt(index) {
    return this.text.slice(0, index).split('\n').length - 1;
  }

  #draw() {
    const bad = this.#place === null ? -1 : this.#lineAt(this.#place);
    this.#colours.replaceChildren(...linesOf(this.text).map((line, i) => this.#row(line, i === bad)));
  }

  // A line with its colours. Where no piece of a bad line is marked, its end is.
  #row(line, isBad) {
    const row = element('div', isBad ? 'row bad' : 'row', ...line.map(piece => this.#coloured(piece)));
    if (isBad && !row.querySelector('mark')) row.append(element('mark', '', ' '));
    return row;
  }

  // A piece with its colour. Of blanks and comments one character is marked, of others the whole.
  #coloured({text, at, kind}) {
    const offset = this.#place === null ? -1 : this.#place - at;
    if (offset < 0 || offset >= text.length) return element('span', kind, text);
    if (kind !== 'comment' && /^\S/.test(text)) return element('span', kind, element('mark', '', text));
    const marked = String.fromCodePoint(text.codePointAt(offset));
    return element('span', kind, text.slice(0, offset), element('mark', '', marked), text.slice(offset + marked.length));
  }
}
