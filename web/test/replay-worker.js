// Makes packed calls again in a worker of a page, of which it is told the addresses {module, calls}. It posts {same, different}, or {broken}.
import {runProgram} from '../page/host.js';
import {replay} from './replay.js';

const bytesOf = async address => new Uint8Array(await (await fetch(address)).arrayBuffer());

self.onmessage = async ({data}) => {
  try {
    const module = await WebAssembly.compile(await bytesOf(data.module));
    self.postMessage(replay(runProgram, module, await bytesOf(data.calls)));
  } catch (error) {
    self.postMessage({broken: String(error)});
  }
};
