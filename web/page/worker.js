// Runs the program apart from the page, so that a long call can be stopped. It is given the module, or loads it and tells it; then come calls. What loads it
// from a folder has that as its name, and begins at once: a message would reach it only when the page is at rest.
import {runProgram} from './host.js';
import {moduleIn, moduleOf} from './load.js';

const encoder = new TextEncoder();
let program;

async function load(loading) {
  program = loading;
  try {
    const module = await loading;
    self.postMessage({module});
    warmUp(module);
  } catch (fault) {
    self.postMessage({unloaded: String(fault.message ?? fault)});
  }
}

// Makes a small call that nobody hears. An engine compiles a function where it is called first, and so does it while the page is still being drawn.
function warmUp(module) {
  const source = encoder.encode('comfusy 3\ndef main(a: int): int = choose (x: int) where a <= 2 * x <= a + 1');
  runProgram(module, ['run', 'source'], {source}, encoder.encode('1\n'));
}

// An answer has the number of its call.
async function answer({number, words, files, input}) {
  const module = await program, before = performance.now();
  const answered = runProgram(module, words, files, input);
  self.postMessage({number, ...answered, milliseconds: performance.now() - before});
}

if (self.name) load(moduleIn(self.name));
self.onmessage = ({data}) => {
  if (data.base64) load(moduleOf(data.base64));
  else if (data.module) program = data.module;
  else answer(data).catch(() => {}); // it is told that there is no program
};
