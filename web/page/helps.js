// What the program's errors mean, for someone who meets them first, and how each kind of answer is named. These stand in where the program gives no help.
import {sourceName} from './heads.js';

const places = {
  'bad byte': 'The language has no such sign. There is no `/`: write `div(a, 2)`. There is no `%`: write `mod(a, 2)`.',
  'number past limit': 'The largest number is 170141183460469231731687303715884105727.',
  'syntax': 'No program goes on like this: the marked word stands in the wrong place, or something before it is missing.',
  'unknown name': 'Nothing has this name here. Is it misspelled, or bound elsewhere?',
  'duplicate name': 'Two things would have one name here.',
  'wrong count': 'There are more or fewer values here than names or parameters for them.',
  'type mismatch': 'This value has another type than what is needed here: a number, a truth value and a set are three things.',
  'not constant': 'Here stands a number that is known before the program runs: digits, a `const`, and sums, differences and products of these.',
  'constant below 1': 'Only a constant of 1 or more divides.',
  'constant past limit': 'The largest number is 170141183460469231731687303715884105727, also on the way to a constant.',
  'calls later function': 'A function calls those that stand above it. Put the one that is called first.',
  'not linear': 'A relation has no product of two unknown numbers, and no set written out but `{}`. If there are few values for one of the numbers, ' +
    'write a case for each. Where an input is the factor, `run` answers all the same.',
};

const wholes = [
  [/(?:^|: )no main$/, 'A program begins at a function that is named `main`.'],
  [/text too long/, 'A program has at most 1,048,576 bytes. A target or steps, read or written, have at most 67,108,864; of language 2 1,048,576 are read.'],
  [/Cases \d/, 'The relation has too many cases: `||` adds them up, `&&` multiplies, and `!=` counts 2. Say with ranges what is left.'],
  [/Search \d/, 'Too many numbers would be tried. If a sum lies between two bounds, give it a name of its own with `==`.'],
  [/Sets \d/, 'At most six sets fit in one relation. Two `choose` one after the other share the work.'],
  [/(Rows|Columns) \d/, 'The relation is too large to be solved at once. Several `choose` one after the other share the work.'],
  [/coefficient past 128 bits/, 'Factors are multiplied on the way to the answer, and the product is past the largest number. Use smaller units, or ' +
    'take the large number apart first.'],
  [/(?:^|: )Weight \d/, 'The program is too large once its calls are written out. Call once, and give the result a name with `let`.'],
  [/(?:^|: )Depth \d/, 'Parentheses, calls or branches stand too deep in one another.'],
  [/rejected at case 0 step 0/, 'This is said of the block as a whole: its steps may be right, but its code or its cases are not theirs.'],
  [/rejected at case/, 'Steps and cases count from 1. This step may not be taken where it stands.'],
  [/no memory/, 'The page ran out of memory, or the program asks for what is not built yet, such as `minimise`.'],
  [/input too long/, 'In language 2 at most 16,777,216 bytes of input are read. A program that begins with `comfusy 3` takes any number.'],
];

const missing = 'The program ends where something else should come. Perhaps a parenthesis, an `else` or the body of a function is missing.';
const placed = new RegExp(`^(?:(?:steps )?line \\d+ column \\d+|${sourceName.replace('.', '\\.')}:\\d+:\\d+): ([a-z 1]+)(?::.*)?$`, 'm');

// What the first line of a fault means, '' where it says all. `isAtEnd` is whether its place is the end of the program.
export function helpOf(what, isAtEnd) {
  const told = placed.exec(what)?.[1];
  if (told === 'syntax' && isAtEnd) return missing;
  return places[told] ?? wholes.find(([pattern]) => pattern.test(what))?.[1] ?? '';
}

const statuses = {
  0: 'answered', 2: 'no such command', 3: 'a file cannot be read', 4: 'the input cannot be read', 5: 'the output cannot be written',
  6: 'refused for its text', 7: 'refused for its names and types', 8: 'refused as not linear', 9: 'refused as too large', 10: 'refused as too large',
  11: 'the input is too long', 12: 'out of memory', 13: 'the steps are rejected', 14: 'some answers are no', 15: 'some answers are undecided',
};

export function nameOfStatus(status) {
  return status === 0 ? statuses[0] : `${statuses[status] ?? 'ended'} (status ${status})`;
}

// What is told where the call was cut short by the engine.
export function helpOfFault(fault) {
  return fault === 'stack' ? 'The stack of this browser is too small for this call. The native program has 8 MiB.' : `The call was cut short: ${fault}`;
}

// What is told where a command wrote nothing.
export function nothingOf({reads}, {status}) {
  if (status === undefined) return 'There is no answer.';
  if (status === 13) return 'The steps are rejected. Why is told below them.';
  if (status !== 0) return 'The program is refused, so there is nothing to show. What is wrong is told below the program.';
  return reads === 'lines' ? 'There are no input lines yet.' : 'There is nothing to show: the program has no choose.';
}
