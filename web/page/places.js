// Where in a text a line of the program points.
import {tokens} from './colours.js';
import {sourceName} from './heads.js';

// The index of a line and a column. Both count from 1, and columns count bytes.
function indexAt(text, line, column) {
  const rows = text.split('\n');
  const before = rows.slice(0, line - 1).reduce((sum, row) => sum + row.length + 1, 0);
  const bytes = new TextEncoder().encode(rows[line - 1] ?? '').subarray(0, column - 1);
  return Math.min(before + new TextDecoder().decode(bytes).length, text.length);
}

// The indices of what the language numbers, in the order of the text: each `choose`, each `match`, and each pattern with a name in it.
export function numberedPlaces(text) {
  const all = tokens(text), found = [], braces = [];
  all.forEach((token, i) => {
    if (token.text === 'choose' || token.text === 'match') found.push(token.at);
    if (token.text === '{') braces.push(i > 0 && all[i - 1].text === 'with');
    const isPattern = braces.at(-1) && (token.text === '{' || token.text === ';');
    if (token.text === '}') braces.pop();
    if (isPattern && hasName(all, i + 1)) found.push(all[i + 1].at);
  });
  return found;
}

// Whether a name stands in the pattern that begins at a token.
function hasName(all, from) {
  for (let i = from; i < all.length && all[i].text !== 'then'; i++) {
    if (/^[A-Za-z_]/.test(all[i].text)) return true;
  }
  return false;
}

// The index of a step of a steps file. The case and the step count from 1; case 0 is the block of the choose as a whole. Undefined where there is none.
function stepPlace(steps, choose, ofCase, step) {
  const all = tokens(steps);
  const at = (from, isWanted) => all.findIndex((token, i) => i >= from && isWanted(token.text, i));
  let place = at(0, (text, i) => text === 'choose' && all[i + 1]?.text === choose);
  for (let i = 0; i < ofCase && place >= 0; i++) place = at(place + 1, text => text === 'case');
  if (place < 0 || ofCase === 0) return all[place]?.at;
  place += 2;
  for (let i = 1; i < step; i++) place = at(place, text => text === ';') + 1;
  return all[place]?.at;
}

// The place of the step or the block that `verify` rejects.
function rejectedPlace(told, steps) {
  const found = /^choose (\d+): rejected at case (\d+) step (\d+): /.exec(told);
  const index = found && stepPlace(steps, found[1], Number(found[2]), Number(found[3]));
  return index === null || index === undefined ? null : {file: 'steps', index};
}

// What a line of the program points to: {file, index}, or null. The file is 'source' or 'steps'.
export function placeOf(told, source, steps) {
  const behind = told.startsWith(`${sourceName}:`) ? told.slice(sourceName.length) : told;
  const found = /^(?:(steps )?line |:)(\d+)(?: column |:)(\d+): /.exec(behind);
  if (found) {
    const file = found[1] ? 'steps' : 'source';
    return {file, index: indexAt(file === 'steps' ? steps : source, Number(found[2]), Number(found[3]))};
  }
  const number = /^(?:choose|match) (\d+): /.exec(told)?.[1];
  const index = number === undefined ? undefined : numberedPlaces(source)[number - 1];
  return rejectedPlace(told, steps) ?? (index === undefined ? null : {file: 'source', index});
}
