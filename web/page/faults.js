// What the program tells of a fault: its lines below the texts, a help, and a mark at its place.
import {placeOf} from './places.js';
import {byId, nodesOf} from './texts.js';

// What is told, taken apart: the first line says what is wrong, then come the line of the source with a caret below its place, and last the help.
export function partsOf(told) {
  const [what, ...rest] = told.split('\n');
  const at = rest.findLastIndex(line => line.startsWith('help: '));
  return {what, excerpt: (at < 0 ? rest : rest.slice(0, at)).join('\n'), help: at < 0 ? '' : rest[at]};
}

export class Faults {
  #editors;
  place = null;

  // `editors` are those of the files: {source, steps}; `onRenew` moves the program to edition 3.
  constructor(editors, onRenew) {
    this.#editors = editors;
    byId('fault-go').addEventListener('click', () => this.goTo(this.place));
    byId('fault-renew').addEventListener('click', onRenew);
  }

  // The place that a line of the program points to, or null.
  placeOf(line) {
    return placeOf(line, this.#editors.source.text, this.#editors.steps.text);
  }

  goTo({file, index}) {
    this.#editors[file].goTo(index);
  }

  // Shows what is told; nothing, where it is ''. `help` stands in where the program gives none, and `isOld` is whether edition 3 may take the text.
  show(told, help, isOld) {
    const parts = partsOf(told);
    this.place = told ? this.placeOf(told) : null;
    for (const [file, editor] of Object.entries(this.#editors)) editor.mark(this.place?.file === file ? this.place.index : null);
    byId('fault').hidden = !told;
    byId('fault-told').textContent = parts.what;
    this.#showExcerpt(parts.excerpt);
    byId('fault-help').replaceChildren(...nodesOf(parts.help || help));
    byId('fault-go').hidden = this.place === null;
    byId('fault-old').hidden = !isOld;
  }

  // Shows the line of the fault so that its caret is seen, also where the line is long.
  #showExcerpt(excerpt) {
    const box = byId('fault-excerpt'), lengths = excerpt.split('\n').map(line => line.length);
    box.textContent = excerpt;
    box.hidden = excerpt === '';
    if (!box.hidden) box.scrollLeft = box.scrollWidth * lengths.at(-1) / Math.max(...lengths) - box.clientWidth / 2;
  }
}
