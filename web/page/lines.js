// The input lines beside their replies. Each reply stands at the height of its line.
import {byId} from './texts.js';

const mostReplies = 2000;
const bad = /^(no solution|overflow|bad input|line too long|choose |\{"error": ")/;

function reply(text, className) {
  const item = document.createElement('li');
  item.textContent = text === '' ? ' ' : text;
  item.className = className;
  return item;
}

const rowsOf = text => text.replace(/\n$/, '').split('\n');

export class Lines {
  #text = byId('lines');
  #replies = byId('replies');

  constructor(onEdit) {
    this.#text.addEventListener('input', () => { this.#fit(); onEdit(); });
  }

  get text() { return this.#text.value; }

  set text(text) {
    this.#text.value = text;
    this.#fit();
  }

  // Tells what main takes.
  expect(inputs) {
    byId('inputs').textContent = (inputs ?? []).map(({name, type}) => `${name}: ${type}`).join(', ');
  }

  // Shows the replies; what stands behind those to the lines are tallies.
  show(out) {
    const replies = out === '' ? [] : rowsOf(out), count = this.text === '' ? 0 : rowsOf(this.text).length;
    const items = replies.slice(0, mostReplies).map((text, i) => reply(text, i >= count ? 'dim' : bad.test(text) ? 'bad' : ''));
    if (replies.length > mostReplies) items.push(reply(`and ${replies.length - mostReplies} more`, 'dim'));
    this.#replies.replaceChildren(...items);
  }

  #fit() {
    this.#text.rows = Math.min(this.text.split('\n').length, mostReplies) + 1;
  }
}
