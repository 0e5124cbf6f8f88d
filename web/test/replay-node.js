// Makes packed calls again in Node: node replay-node.js MODULE.wasm CALLS. It prints {same, different}.
import fs from 'node:fs';
import {runProgram} from '../page/host.js';
import {replay} from './replay.js';

const [module, calls] = process.argv.slice(2).map(path => fs.readFileSync(path));
console.log(JSON.stringify(replay(runProgram, new WebAssembly.Module(module), new Uint8Array(calls))));
