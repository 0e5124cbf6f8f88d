// The files to take home, each with a button that saves it. A file is made in the page, and handed to the browser as a download: nothing is sent.
import {files} from './home.js';
import {button, byId, element, nodesOf} from './texts.js';

const untilFreed = 60000;

function save(name, text) {
  const link = element('a', ''), place = URL.createObjectURL(new Blob([text], {type: 'text/plain'}));
  Object.assign(link, {href: place, download: name});
  link.click();
  setTimeout(() => URL.revokeObjectURL(place), untilFreed);
}

export class Saving {
  #texts;
  #answerTo;

  // `texts` gives {source, lines}, and `answerTo` the answer to a command on the source; `isOneFile` is whether this page is the one in one file.
  constructor(texts, answerTo, isOneFile) {
    this.#texts = texts;
    this.#answerTo = answerTo;
    byId('files').append(...files.map(file => this.#row(file)), this.#pageRow(isOneFile));
  }

  #row(file) {
    const made = button(file.name, () => this.#make(file));
    made.className = 'code';
    const told = element('p', '', ...nodesOf(file.tells));
    return element('li', '', made, element('div', '', told, ...file.command ? [element('code', 'command', file.command)] : []));
  }

  #pageRow(isOneFile) {
    const told = element('p', '', 'this page in one file, which needs neither a server nor a network');
    const link = element(isOneFile ? 'span' : 'a', 'code button', 'comfusy.html');
    if (isOneFile) told.append('; it is the one that you have open');
    else Object.assign(link, {href: 'single.html', download: 'comfusy.html'});
    return element('li', '', link, element('div', '', told));
  }

  // Makes a file and saves it, or tells why it cannot be made.
  async #make(file) {
    const texts = this.#texts(), answer = file.asks ? await this.#answerTo(file.asks) : {status: 0, out: ''};
    if (answer.status === 0) save(file.name, file.text ? file.text({...texts, target: answer.out}) : answer.out);
    byId('saved').textContent = answer.status === 0 ? `${file.name} is made.` : `${file.name} cannot be made: ${file.asks} refuses the program.`;
  }
}
