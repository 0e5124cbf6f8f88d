// Shows the tour, a step at a time.
import {tour} from './tour.js';
import {button, byId, element, nodesOf} from './texts.js';

export class Guide {
  #at = 0;
  #onStep;
  #onOffer;

  // `onStep` is called with the step that is shown, `onOffer` with the change that the reader makes.
  constructor(onStep, onOffer) {
    this.#onStep = onStep;
    this.#onOffer = onOffer;
    byId('open-tour').addEventListener('click', () => this.#show(0));
    byId('tour-back').addEventListener('click', () => this.#show(this.#at - 1));
    byId('tour-next').addEventListener('click', () => this.#next());
    byId('tour-close').addEventListener('click', () => this.close());
  }

  get isOpen() { return !byId('tour').hidden; }

  close() {
    byId('tour').hidden = true;
    byId('open-tour').focus();
  }

  #next() {
    if (this.#at + 1 < tour.length) this.#show(this.#at + 1);
    else this.close();
  }

  #show(at) {
    this.#at = at;
    const step = tour[at];
    byId('tour').hidden = false;
    byId('tour-title').textContent = step.title;
    byId('tour-count').textContent = `step ${at + 1} of ${tour.length}`;
    byId('tour-text').replaceChildren(...step.text.map(text => element('p', '', ...nodesOf(text))));
    byId('tour-offers').replaceChildren(...this.#offers(step));
    byId('tour-back').disabled = at === 0;
    byId('tour-next').textContent = at + 1 < tour.length ? 'Next' : 'Done';
    byId('tour-title').focus();
    this.#onStep(step);
  }

  #offers({offer}) {
    if (!offer) return [];
    const made = button(offer.label, () => { made.disabled = true; this.#onOffer(offer); });
    made.id = 'tour-offer';
    return [made];
  }
}
