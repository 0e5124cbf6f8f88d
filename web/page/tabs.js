// The row of tabs, one for each command.
import {commands} from './commands.js';
import {byId} from './texts.js';

export class Tabs {
  #list = byId('tabs');
  #onSelect;
  selected = commands[0].name;

  constructor(onSelect) {
    this.#onSelect = onSelect;
    this.#list.append(...commands.map(command => this.#tab(command)));
    this.#list.addEventListener('keydown', event => this.#press(event));
    this.show(this.selected);
  }

  // Shows a tab as the selected one.
  show(name) {
    this.selected = name;
    for (const tab of this.#list.children) {
      const isSelected = tab.dataset.command === name;
      tab.setAttribute('aria-selected', isSelected);
      tab.tabIndex = isSelected ? 0 : -1;
    }
    byId('panel').setAttribute('aria-labelledby', `tab-${name}`);
  }

  #tab({name, label = name}) {
    const tab = document.createElement('button');
    Object.assign(tab, {type: 'button', role: 'tab', id: `tab-${name}`, textContent: label});
    tab.dataset.command = name;
    tab.setAttribute('role', 'tab');
    tab.setAttribute('aria-controls', 'panel');
    tab.addEventListener('click', () => this.#onSelect(name));
    return tab;
  }

  #press(event) {
    const tabs = [...this.#list.children], at = tabs.findIndex(tab => tab.dataset.command === this.selected);
    const next = {ArrowRight: at + 1, ArrowLeft: at - 1, Home: 0, End: tabs.length - 1}[event.key];
    if (next === undefined) return;
    event.preventDefault();
    const tab = tabs[(next + tabs.length) % tabs.length];
    tab.focus();
    tab.click();
  }
}
