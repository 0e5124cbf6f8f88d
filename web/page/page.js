// The page: an editor beside what the program answers. Each edit is answered anew.
import {commandOf} from './commands.js';
import {Editor} from './editor.js';
import {programSum} from './examples.js';
import {Faults} from './faults.js';
import {Guide} from './guide.js';
import {inputsOfMain, isOfEdition3, sourceName} from './heads.js';
import {helpOf, helpOfFault, nothingOf} from './helps.js';
import {Lines} from './lines.js';
import {stateOf} from './link.js';
import {Menu, exampleOf} from './menu.js';
import {Plot} from './plot.js';
import {Program} from './program.js';
import {Saving} from './saving.js';
import {Sharing} from './sharing.js';
import {showEnd, showUnloaded, showWorking} from './status.js';
import {Tabs} from './tabs.js';
import {byId, nodesOf} from './texts.js';
import {showWritten} from './written.js';

const {begun} = globalThis;
// In milliseconds.
const untilAsked = 100, untilWorking = 300, longestPlot = 3000;
const source = new Editor(byId('source'), () => edited());
const steps = new Editor(byId('steps'), () => { hasOwnSteps = true; edited(); });
const lines = new Lines(() => edited());
const faults = new Faults({source, steps}, renew);
const menu = new Menu(name => { loadExample(name); sharing.keep(); ask(); });
const tabs = new Tabs(choose);
const plot = new Plot(askSoon, tryLine);
const guide = new Guide(startStep, makeOffer);
const sharing = new Sharing(state);
new Saving(() => ({source: source.text, lines: lines.text}), answerToSaving, begun.isOneFile);
const program = new Program(begun, tellUnloaded);
let maker = null, isUnloaded = false, hasOwnSteps = false, seen = [], latest = 0, askTimer;

// ---- what is asked ----

function edited() {
  menu.name = '';
  byId('notice').hidden = true;
  sharing.keep();
  askSoon();
}

function askSoon() {
  clearTimeout(askTimer);
  askTimer = setTimeout(ask, untilAsked);
}

function flags() {
  return [...byId('flags').querySelectorAll('input:checked')].map(box => box.value);
}

function callOf({name, asks = name, reads}) {
  const files = {[sourceName]: source.text};
  if (reads === 'steps') files.steps = steps.text;
  return {words: [asks, ...Object.keys(files), ...flags()], files, input: reads === 'lines' ? lines.text : ''};
}

// Asks the program what the tab shows. Each question has a number; an answer to any but the latest is left.
async function ask() {
  clearTimeout(askTimer);
  if (isUnloaded) return;
  const number = ++latest, command = commandOf(tabs.selected), timer = setTimeout(() => showWorking(program.isLoaded), untilWorking);
  const answer = await answerTo(command, number);
  clearTimeout(timer);
  if (number !== latest) return;
  show(command, answer);
  if (command.reads === 'lines' && answer.status === 0) await askPlot(number);
}

// The answer to a command; steps that the reader has not written are those of `prove`.
async function answerTo(command, number) {
  if (command.reads === 'steps' && !hasOwnSteps) {
    const proved = await program.call(callOf(commandOf('prove')));
    if (number !== latest || proved.status !== 0) return proved;
    steps.text = proved.out;
  }
  return program.call(callOf(command));
}

// The answer for a file to be saved, {} while the program is not there. It has a worker of its own, so that no answer to an edit is cut short by it.
async function answerToSaving(name) {
  if (!program.isLoaded) return {};
  maker ??= program.another();
  return maker.call({words: [name, sourceName], files: {[sourceName]: source.text}, input: ''});
}

async function askPlot(number) {
  const input = plot.lines(inputsOfMain(source.text), lines.text);
  if (input === null) return;
  const timer = setTimeout(() => { if (number === latest) program.stop(); }, longestPlot);
  const answer = await program.call({words: ['run', sourceName], files: {[sourceName]: source.text}, input});
  clearTimeout(timer);
  if (number !== latest) return;
  if (answer.status === 0) plot.show(answer.out);
  else plot.stop();
  document.body.dataset.plotted = number;
}

// ---- what is shown ----

function show(command, answer) {
  const isCut = answer.isStopped || answer.fault;
  showEnd(answer);
  showFault(answer);
  showOut(command, answer.out ?? '');
  for (const id of ['replies', 'written']) byId(id).dataset.nothing = nothingOf(command, answer);
  if (isCut || answer.status !== 0 || command.reads !== 'lines') plot.hide();
  markSeen();
  document.body.dataset.first ??= Math.round(performance.now());
  document.body.dataset.answered = latest;
}

function showFault({fault, err = '', status}) {
  const told = fault ? helpOfFault(fault) : err.trimEnd(), [what] = told.split('\n');
  faults.show(told, helpOf(what, isAtEnd(what)), status >= 6 && status <= 10 && !isOfEdition3(source.text));
}

// Whether a line tells of the end of the program.
function isAtEnd(told) {
  const place = faults.placeOf(told);
  return place?.file === 'source' && place.index >= source.text.trimEnd().length;
}

function showOut(command, out) {
  const inputs = inputsOfMain(source.text);
  lines.expect(inputs);
  if (command.shows === 'replies') lines.show(out);
  else if (command.shows === 'written') showWritten(out, {inputs, placeOf: line => faults.placeOf(line), go: place => faults.goTo(place), onTry: tryLine});
}

// Marks what the step of the tour speaks of.
function markSeen() {
  if (!guide.isOpen) return;
  for (const row of document.querySelectorAll('#replies > *, #written > *')) row.classList.toggle('seen', seen.includes(row.firstChild?.textContent));
}

// ---- what is chosen ----

function flagBox({flag, tells}) {
  const box = document.createElement('input'), label = document.createElement('label');
  Object.assign(box, {type: 'checkbox', value: flag});
  box.addEventListener('change', ask);
  label.append(box, ` ${flag}`);
  label.className = 'inline code';
  label.title = tells;
  return label;
}

function showTab(name) {
  const command = commandOf(name);
  tabs.show(command.name);
  byId('question').replaceChildren(...nodesOf(command.question));
  byId('flags').replaceChildren(...command.flags.map(flagBox));
  byId('lines-part').hidden = command.shows !== 'replies';
  byId('written').hidden = command.shows !== 'written';
  byId('home-part').hidden = command.shows !== 'files';
  byId('saved').textContent = '';
  byId('steps-part').hidden = command.reads !== 'steps';
}

function choose(name) {
  showTab(name);
  sharing.keep();
  ask();
}

function state() {
  return {tab: tabs.selected, example: menu.name, source: source.text, lines: lines.text, steps: hasOwnSteps ? steps.text : ''};
}

function loadTexts(texts) {
  source.text = texts.source;
  lines.text = texts.lines ?? '';
  steps.text = texts.steps ?? '';
  hasOwnSteps = steps.text !== '';
  byId('notice').hidden = true;
  plot.reset();
}

function loadExample(name) {
  const example = exampleOf(name);
  loadTexts(example);
  menu.name = example.name;
}

// Adds an input line, and runs the program on it.
function tryLine(line) {
  lines.text = lines.text.replace(/\n*$/, lines.text ? '\n' : '') + `${line}\n`;
  edited();
  choose('run');
}

function startStep(step) {
  seen = step.seen;
  loadExample(step.example);
  if (step.change) change(step.change);
  choose(step.tab);
}

function makeOffer(offer) {
  seen = offer.seen;
  change(offer);
  ask();
}

// Makes a text of language 2 one of edition 3.
function renew() {
  source.text = `comfusy 3\n${source.text}`;
  edited();
}

function change({from, to}) {
  source.text = source.text.replace(from, to);
  edited();
}

// ---- the start ----

// Shows what the address holds.
async function loadLink() {
  try {
    const held = await stateOf(location.hash);
    if (held.source === undefined) {
      loadExample(held.example);
    } else {
      loadTexts(held);
      menu.name = '';
    }
    showTab(held.tab);
  } catch {
    loadExample('');
    showTab('');
    byId('notice').textContent = 'This link cannot be read; perhaps it was cut short. Here is an example instead.';
    byId('notice').hidden = false;
  }
}

function press(event) {
  if (event.key === 'Enter' && (event.ctrlKey || event.metaKey)) ask();
  else if (event.key === 'F8' && faults.place) faults.goTo(faults.place);
  else if (event.key === 'Escape' && program.isBusy) program.stop();
  else if (event.key === 'Escape' && guide.isOpen) guide.close();
  else return;
  event.preventDefault();
}

function listen() {
  byId('fill-steps').addEventListener('click', () => { hasOwnSteps = false; ask(); });
  byId('stop').addEventListener('click', () => program.stop());
  document.addEventListener('keydown', press);
  window.addEventListener('hashchange', async () => { await loadLink(); ask(); });
}

function tellUnloaded(why) {
  isUnloaded = true;
  program.stop();
  latest++;
  showUnloaded();
  faults.show(why, 'A web server has to hand out the files beside this one; the page in one file opens from a disk.', false);
}

async function start() {
  byId('unstarted').remove();
  listen();
  byId('made-of').textContent = `It is made of the proved program whose checksum begins with ${programSum.slice(0, 12)}.`;
  await loadLink();
  ask();
}

start();
