// What is read off the text of a program by its tokens.
import {tokens} from './colours.js';

// The name that the program has for the page, and at home.
export const sourceName = 'program.cf';

// The inputs of main in order, each {name, type}; null where the text has no main that can be read.
export function inputsOfMain(source) {
  const all = tokens(source).map(token => token.text);
  const start = all.findIndex((text, i) => text === 'def' && all[i + 1] === 'main' && all[i + 2] === '(');
  const end = all.indexOf(')', start);
  if (start < 0 || end < 0) return null;
  const listed = all.slice(start + 3, end).join(' ');
  const inputs = listed === '' ? [] : listed.split(',').map(part => /^\s*(\w+) : (\w+)\s*$/.exec(part));
  return inputs.every(Boolean) ? inputs.map(([, name, type]) => ({name, type})) : null;
}

// Whether the text is of edition 3: it begins with the word `comfusy` and a literal of value 3. Any other is of language 2.
export function isOfEdition3(source) {
  const [word, edition] = tokens(source).map(token => token.text);
  return word === 'comfusy' && Number(edition) === 3;
}
