// What can be taken home, in the order in which it is shown: a further file is one more row.
//   name     the file that is saved
//   tells    what it is; `code` stands between backticks
//   command  what is typed in a shell, in the folder with the files
//   asks     the command of the program that writes it, or
//   text     its text of {source, lines, target}
import {sourceName} from './heads.js';

export const files = [
  {
    name: sourceName,
    tells: 'the program as it stands here',
    command: `comfusy run ${sourceName} < program.in`,
    text: ({source}) => source,
  },
  {
    name: 'program.in',
    tells: 'the input lines of the `run` tab',
    command: '',
    text: ({lines}) => lines,
  },
  {
    name: 'program.target',
    tells: 'what it is compiled to: no `choose` is left, and nothing is solved again',
    command: 'comfusy exec program.target < program.in',
    asks: 'compile',
  },
  {
    name: 'program.steps',
    tells: 'how each `choose` was solved, to be checked by whoever doubts it',
    command: `comfusy verify ${sourceName} program.steps`,
    asks: 'prove',
  },
  {
    name: 'program.py',
    tells: 'Python that answers the lines, over the library and its package: `pip install ./python` in the repository',
    command: 'python3 program.py',
    text: pythonOf,
  },
  {
    name: 'program.c',
    tells: 'C that holds the target and answers its input, over the library',
    command: 'gcc -o program program.c `pkg-config --cflags --libs comfusy` && ./program < program.in',
    asks: 'compile',
    text: cOf,
  },
];

function pythonOf() {
  return `"""Answers each line of program.in by ${sourceName}."""
from pathlib import Path

import comfusy

program = comfusy.compile(Path("${sourceName}").read_text())
lines = Path("program.in").read_text().splitlines()
for line, reply in zip(lines, program.run_all(lines)):
    print(line, "->", reply if isinstance(reply, tuple) else repr(reply))
`;
}

// The target as a literal of C, a line for each of its own; it holds neither quotes nor backslashes.
function cOf({target}) {
  const literal = target.trimEnd().split('\n').map(line => `  "${line}\\n"`).join('\n');
  return `/* Answers each line of its input, of 64 KiB at most, by a target of Comfusy. */
#include <comfusy.h>
#include <stdio.h>

static const char target[] =
${literal};

#define BYTES(text) {(const uint8_t *)(text), sizeof(text) - 1}

int main(void) {
  static uint8_t input[1 << 16], out[1 << 22], err[1 << 10];
  const comfusy_bytes words[] = {BYTES("exec"), BYTES("target")};
  const comfusy_file files[] = {{BYTES("target"), BYTES(target)}};
  size_t size = fread(input, 1, sizeof input, stdin), out_size = 0, err_size = 0;
  uint32_t status = comfusy(words, 2, files, 1, input, size, out, sizeof out, &out_size, err, sizeof err, &err_size);
  if (status == COMFUSY_DONE) fwrite(out, 1, out_size, stdout);
  return (int)status;
}
`;
}
