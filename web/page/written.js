// What a command wrote, line by line, with colours. A line on a choose or a match leads to it.
import {pieces} from './colours.js';
import {button, byId, element} from './texts.js';

const mostLines = 5000;

function classOf(line) {
  if (/: (outputs always|outputs unique|covers all numbers|verified)$/.test(line)) return 'good';
  return /undecided|nothing (bounds|uses) |no number reaches | never holds$|a line may try /.test(line) ? 'dim' : 'bad';
}

function leadingLine(line, go) {
  const made = button(line, go);
  made.className = `line ${classOf(line)}`;
  made.title = 'Go there';
  return made;
}

function colouredLine(line) {
  return element('div', '', ...pieces(line).map(({text, kind}) => kind ? element('span', kind, text) : text));
}

// The inputs that a line of `check` names, as an input line for main; null where it names none, or not each input.
export function sampleOf(line, inputs) {
  const sample = /: (?:no outputs|two outputs) for (.*?)(?:: .*)?$/.exec(line)?.[1];
  if (!sample || !inputs?.length) return null;
  const values = new Map([...sample.matchAll(/(\w+) = (\{[^}]*\}|[^,]+)/g)].map(([, name, value]) => [name, value]));
  return inputs.every(({name}) => values.has(name)) ? inputs.map(({name}) => values.get(name)).join(' ') : null;
}

function tryButton(sample, onTry) {
  const made = button(`run ${sample}`, () => onTry(sample));
  made.className = 'try';
  made.title = 'Add this input line, and run the program';
  return made;
}

// Shows what was written. `placeOf` tells the place that a line points to, and `go` goes to it; `onTry` runs a sample.
export function showWritten(out, {inputs, placeOf, go, onTry}) {
  const lines = out === '' ? [] : out.replace(/\n$/, '').split('\n');
  const rows = lines.slice(0, mostLines).map(line => {
    const place = placeOf(line), sample = sampleOf(line, inputs);
    return element('div', '', place ? leadingLine(line, () => go(place)) : colouredLine(line), sample ? tryButton(sample, onTry) : '');
  });
  if (lines.length > mostLines) rows.push(element('div', 'dim', `and ${lines.length - mostLines} more lines`));
  byId('written').replaceChildren(...rows);
}
