// The line that says how the last call ended, or that it goes on.
import {nameOfStatus} from './helps.js';
import {byId} from './texts.js';

function showStatus(text, className, time = '') {
  byId('status').textContent = text;
  byId('status').className = className;
  byId('time').textContent = time;
  byId('stop').hidden = true;
  byId('panel').classList.remove('stale');
}

function timeOf(milliseconds) {
  return milliseconds < 10 ? `${milliseconds.toFixed(1)} ms` : `${Math.round(milliseconds)} ms`;
}

// What stands there is the answer to an earlier call.
export function showWorking(isLoaded) {
  showStatus(isLoaded ? 'working' : 'loading the program', '');
  byId('stop').hidden = false;
  byId('panel').classList.add('stale');
}

export function showUnloaded() {
  showStatus('the program cannot be loaded', 'bad');
}

// How an answer ended.
export function showEnd({isStopped, fault, status, milliseconds}) {
  if (isStopped) showStatus('stopped', 'bad');
  else if (fault) showStatus('no answer', 'bad');
  else showStatus(nameOfStatus(status), status === 0 ? 'good' : 'bad', timeOf(milliseconds));
}
