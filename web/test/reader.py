"""Someone who uses the page in Chromium."""

import json

SEEN = """(shown => JSON.stringify({
  told: shown('fault-told'), excerpt: shown('fault-excerpt'), help: shown('fault-help'), old: shown('fault-old') !== '',
  replies: [...document.querySelectorAll('#replies li')].map(it => it.textContent),
  written: [...document.querySelectorAll('#written > div')].map(it => it.firstChild ? it.firstChild.textContent : ''),
  marks: [...document.querySelectorAll('mark')].map(it => it.textContent),
  rows: [...document.querySelectorAll('.row.bad')].map(it => [...it.parentNode.children].indexOf(it) + 1),
  status: document.getElementById('status').textContent}))(
  id => document.getElementById('fault').hidden || document.getElementById(id).hidden ? '' : document.getElementById(id).textContent)"""


class Reader:
    """Someone who uses the page."""

    def __init__(self, browser, judge):
        self.browser, self.judge = browser, judge

    def eval(self, text):
        return self.browser.eval(text)

    def seen(self):
        return json.loads(self.eval(SEEN))

    def settled(self, act):
        """Returns what is seen when the last call that an act leads to is answered."""
        before = int(self.eval("document.body.dataset.answered || 0"))
        self.eval(act)
        self.browser.wait(f"Number(document.body.dataset.answered) > {before}")
        return self.seen()

    def plotted(self, act):
        """Returns what the plot tells when an act has led to a new one."""
        self.settled(act)
        self.browser.wait("document.body.dataset.plotted === document.body.dataset.answered")
        return self.eval("[...document.querySelectorAll('#plot .legend')].map(it => it.textContent).join(', ')")

    def press(self, name):
        return self.settled(f"document.getElementById('tab-{name}').click()")

    def choose(self, name):
        return f"(menu => {{ menu.value = '{name.replace('/', '-')}'; menu.dispatchEvent(new Event('change')); }})(document.getElementById('examples'))"

    def example(self, name):
        return self.settled(self.choose(name))

    def write(self, box, text):
        """Writes a text into a text area, or one line into a field."""
        return f"(box => {{ box.value = {json.dumps(text)}; box.dispatchEvent(new Event('input')); }})({box})"

    def typed(self, text, box="source-text"):
        return self.settled(self.write(f"document.getElementById('{box}')", text))


def lines_of(text):
    return text.split("\n")[:-1] if text else []
