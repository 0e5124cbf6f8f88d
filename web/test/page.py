"""The page in Chromium, by its own buttons."""

import json
import re
import shutil
import tempfile
import time

import chromium
from home import try_home
from looks import PICTURES, take_pictures, try_contrast, try_names, try_narrow
from reader import Reader, lines_of
from repository import ROOT, SITE, answers_of, names_in, text_of
from server import serve


def try_examples(reader):
    """Each example in each tab against the files of the repository."""
    listed = reader.eval("[...document.querySelectorAll('#examples option')].map(it => it.value)")
    names = [name for name in names_in(".") if name in listed]
    reader.judge.judge("page, there are examples", len(names) > 20, True)
    for name in names:
        reader.press("run")
        reader.example(name)
        for command, out, err in answers_of(name):
            seen = reader.press(command)
            written = seen["replies"] if command == "run" else [line for line in seen["written"] if line]
            reader.judge.judge(f"page, {name} {command}", [written, seen["told"]], [lines_of(out.replace(f"examples/{name}.cf:", "program.cf:")), err.strip()])
        fits = reader.eval("[...document.querySelectorAll('.editor textarea')].every(it => it.scrollHeight <= it.clientHeight)")
        reader.judge.judge(f"page, {name}, the text lies over its colours", fits, True)


def told_of(err):
    """Returns what the page shows of what the program writes to its error: the first line, the line of the source with its caret, and the help."""
    what, *rest = err.strip("\n").split("\n")
    helps = [line for line in rest if line.startswith("help: ")]
    return what, "\n".join(line for line in rest if line not in helps), "".join(helps)


def try_refused(reader):
    """Each source that is refused, with its place; and a help for each: that of the program, where it gives one."""
    reader.press("run")
    for name in names_in("refused"):
        seen, is_old = reader.example(name), not text_of(f"{name}.cf").startswith("comfusy 3")
        what, excerpt, helped = told_of(text_of(f"{name}.err").replace(f"examples/{name}.cf:", "program.cf:"))
        reader.judge.judge(f"page, {name}", [seen["told"], seen["excerpt"], seen["replies"], seen["old"]], [what, excerpt, [], is_old])
        reader.judge.judge(f"page, {name}, a help", seen["help"], helped or seen["help"] or "a help")
        place = re.match(r"(?:line |program.cf:)(\d+)", what)
        if place:
            reader.judge.judge(f"page, {name}, its line", [seen["rows"], len(seen["marks"])], [[int(place[1])], 1])
        elif what.startswith("choose "):
            reader.judge.judge(f"page, {name}, its choose", seen["marks"], ["choose"])


def try_editions(reader):
    """A text of language 2 that is refused may be begun as one of edition 3, where its faults tell more."""
    reader.press("run")
    reader.example("refused/chain")
    seen = reader.settled("document.getElementById('fault-renew').click()")
    reader.judge.judge("page, a chain in edition 3", [seen["told"], seen["replies"]], ["", []])
    reader.example("refused/typo")
    seen = reader.settled("document.getElementById('fault-renew').click()")
    told = [seen["told"], seen["excerpt"].split("\n")[0].strip(), seen["marks"], seen["rows"], seen["old"]]
    wanted = ["program.cf:4:9: unknown name: 'hours'", "where hours * 3600 + m * 60 + s == t", ["hours"], [4], False]
    reader.judge.judge("page, a typo in edition 3", told, wanted)
    seen = reader.typed("comfusy 3\n# \u00e4\ndef main(first: int): int = frist\n")
    told = [seen["told"], seen["excerpt"].split("\n")[1].index("^"), seen["help"].split(".")[0], seen["marks"]]
    reader.judge.judge("page, typed, edition 3", told, ["program.cf:3:29: unknown name: 'frist'", 28, "Nothing has this name here", ["frist"]])
    seen = reader.typed("comfusy 3\ndef main(first: int): int = firs\n")
    reader.judge.judge("page, typed, a name that is near", seen["help"], "help: did you mean 'first'?")
    seen = reader.typed("comfusy 3\ndef main(a: int): int =\n")
    reader.judge.judge("page, typed, too short", [seen["help"], seen["rows"]], ["help: the text ends too early: a ), an else, an in or a body is missing", [3]])
    reader.browser.shot(PICTURES / "edition-3.png")


def try_steps(reader):
    """The steps that were written by hand."""
    for name in names_in("steps"):
        reader.press("verify")
        seen, err = reader.example(name), (text_of(f"{name}.err") or "").strip()
        out = text_of(f"{name}.out") or ""
        reader.judge.judge(f"page, {name}", [[line for line in seen["written"] if line], seen["told"]], [lines_of(out), err])
    reader.example("steps/unclean")
    reader.judge.judge("page, the step that is rejected", reader.seen()["marks"], ["drop"])
    reader.settled("document.getElementById('fill-steps').click()")
    reader.judge.judge("page, the steps of prove", reader.seen()["written"], ["choose 1: verified"])
    seen = reader.typed("choose 1 {\ncase {\n%", "steps-text")
    reader.judge.judge("page, a fault of steps", [seen["told"], seen["marks"], seen["rows"]], ["steps line 3 column 1: bad byte", ["%"], [3]])
    reader.example("steps/unclean")
    reader.browser.shot(PICTURES / "rejected.png")


def try_typing(reader):
    """A source that is typed: columns count bytes, and a fault is gone to."""
    reader.press("run")
    reader.example("seconds")
    seen = reader.typed("# \u00e4\ndef main(a: int): int = b\n")
    reader.judge.judge("page, typed", [seen["told"], seen["marks"], seen["rows"]], ["line 2 column 25: unknown name", ["b"], [2]])
    seen = reader.typed("def main(a: int): int = a\n# \u00e4 \u00e4 a\n%")
    reader.judge.judge("page, typed, a byte", [seen["told"], seen["marks"], seen["rows"]], ["line 3 column 1: bad byte", ["%"], [3]])
    seen = reader.typed("# \U0001f600\ndef main(a: int): int =\n")
    reader.judge.judge("page, typed, the end", [seen["told"], seen["marks"], seen["rows"]], ["line 3 column 1: syntax", [" "], [3]])
    reader.browser.shot(PICTURES / "refused.png")
    reader.eval("document.getElementById('fault-go').click()")
    place = reader.eval("[document.activeElement.id, document.activeElement.selectionStart]")
    reader.judge.judge("page, gone to", place, ["source-text", 29])
    seen = reader.typed("def main(a: int): int = -a\n")
    reader.judge.judge("page, typed, no fault", [seen["told"], seen["marks"], seen["replies"][0]], ["", [], "-3661"])
    seen = reader.typed("7\nx\n", "lines")
    reader.judge.judge("page, typed lines", seen["replies"], ["-7", "bad input"])
    reader.judge.judge("page, no example is chosen", reader.eval("document.getElementById('examples').value"), "")


def try_flags(reader):
    reader.press("compile")
    reader.example("even")
    seen = reader.settled("document.querySelector('#flags input[value=\"--stats\"]').click()")
    tallies = [line.rstrip("0123456789") for line in seen["written"][-4:]]
    reader.judge.judge("page, --stats", tallies, ["# fold ", "# drop-needs ", "# drop-arms ", "# drop-lets "])
    reader.press("run")
    reader.example("clock")
    seen = reader.settled("document.querySelector('#flags input[value=\"--jsonl\"]').click()")
    reader.judge.judge("page, --jsonl", seen["replies"][0], '{"h": 1, "m": 1, "s": 1}')


def try_check(reader):
    """A line of check leads to its choose, and its input can be run."""
    reader.press("check")
    reader.example("commits")
    reader.eval("document.querySelectorAll('#written .line')[2].click()")
    start = reader.eval("document.getElementById('source-text').selectionStart")
    reader.judge.judge("page, the second choose", start, text_of("commits.cf").rindex("choose"))
    reader.example("stamps")
    seen = reader.settled("document.querySelector('#written .try').click()")
    reader.judge.judge("page, the input of check", [seen["replies"][-1], len(seen["replies"])], ["no solution at choose 1", 6])


def try_stop(reader):
    """A long call is stopped, by the button and by the key, and the next one is answered."""
    acts = {"button": lambda: reader.eval("document.getElementById('stop').click()"), "key": lambda: reader.browser.press("Escape", 27)}
    for name, act in acts.items():
        reader.press("run")
        reader.example("combination")
        lines = json.dumps("999983 999979 7 6\n" * 300)
        reader.eval(f"(box => {{ box.value = {lines}; box.dispatchEvent(new Event('input')); }})(document.getElementById('lines'))")
        reader.browser.wait("!document.getElementById('stop').hidden")
        if name == "button":
            reader.browser.shot(PICTURES / "working.png")
        act()
        reader.browser.wait("document.getElementById('status').textContent === 'stopped'")
        reader.judge.judge(f"page, stopped by the {name}", reader.eval("document.getElementById('stop').hidden"), True)
        reader.judge.judge("page, after it", reader.example("even")["replies"], lines_of(text_of("even.out")))


def try_keys(reader):
    reader.press("run")
    reader.example("even")
    reader.eval("document.getElementById('tab-run').focus()")
    before = int(reader.eval("document.body.dataset.answered"))
    reader.browser.press("ArrowRight", 39)
    reader.browser.wait(f"Number(document.body.dataset.answered) > {before}")
    selected = reader.eval("[document.activeElement.id, document.querySelector('[aria-selected=true]').id]")
    reader.judge.judge("page, the right arrow", selected, ["tab-compile", "tab-compile"])
    before = int(reader.eval("document.body.dataset.answered"))
    reader.browser.press("Enter", 13, modifiers=2)
    reader.browser.wait(f"Number(document.body.dataset.answered) > {before}")
    reader.judge.judge("page, control and enter", reader.seen()["written"][0], text_of("even.target").split("\n")[0])
    reader.press("run")
    reader.example("refused/typo")
    reader.browser.press("F8", 119)
    reader.judge.judge("page, F8", reader.eval("document.activeElement.selectionStart"), text_of("refused/typo.cf").index("hours"))


def try_links(reader, address):
    """A link holds the program, the lines and the tab, compressed or as it is; a broken one is told."""
    source = "def main(a: int): int = choose (x: int) where 2 * x == a\n# \u00e4 & # % +\n"
    reader.press("run")
    reader.example("seconds")
    reader.typed(source)
    reader.typed("4\n5\n", "lines")
    reader.browser.wait("location.hash.includes('packed=')")
    time.sleep(0.5)
    link = reader.eval("location.href")
    plain = f"{address}#tab=check&source=def%20main(a%3A%20int)%3A%20int%20%3D%20choose%20(x%3A%20int)%20where%20x%20%3D%3D%20a"
    for name, to, tab in (("packed", link, "run"), ("as it is", plain, "check"), ("an example", f"{address}#tab=pre&example=even", "pre")):
        reader.browser.open("about:blank")
        reader.browser.open(to)
        reader.browser.wait("document.body.dataset.answered")
        reader.judge.judge(f"page, a link, {name}, its tab", reader.eval("document.querySelector('[aria-selected=true]').id"), f"tab-{tab}")
        if name == "packed":
            seen = [reader.eval("document.getElementById('source-text').value"), reader.seen()["replies"]]
            reader.judge.judge("page, a link, its program", seen, [source, ["2", "no solution at choose 1"]])
        elif name == "as it is":
            reader.judge.judge("page, a link as it is", reader.seen()["written"], ["choose 1: outputs always", "choose 1: outputs unique"])
    reader.eval("document.getElementById('share').click()")
    reader.browser.wait("document.getElementById('link').value !== ''")
    reader.judge.judge("page, the link that is shown", reader.eval("document.getElementById('link').value"), f"{address}#tab=pre&example=even")
    reader.eval("document.getElementById('copy').click()")
    reader.browser.wait("document.getElementById('copied').textContent !== ''")
    reader.browser.open("about:blank")
    reader.browser.open(f"{address}#tab=run&packed=AAAA")
    reader.browser.wait("document.body.dataset.answered")
    reader.judge.judge("page, a broken link", reader.eval("document.getElementById('notice').hidden"), False)


def try_tour(reader):
    """Each step of the tour shows what it speaks of."""
    text = (ROOT / "web/page/tour.js").read_text(encoding="utf-8").replace("export const", "const")
    steps = json.loads(reader.eval(f"(() => {{ {text}; return JSON.stringify(tour); }})()"))
    reader.judge.judge("page, tour, its steps", len(steps), 8)
    reader.settled("document.getElementById('open-tour').click()")
    marked = "[...new Set([...document.querySelectorAll('.seen')].map(it => it.firstChild.textContent))]"
    for number, step in enumerate(steps, 1):
        reader.judge.judge(f"page, tour, step {number}", reader.eval("document.getElementById('tour-title').textContent"), step["title"])
        reader.judge.judge(f"page, tour, step {number}, what is marked", sorted(reader.eval(marked)), sorted(step["seen"]))
        reader.judge.judge(f"page, tour, step {number}, the focus", reader.eval("document.activeElement.id"), "tour-title")
        if "offer" in step:
            reader.settled("document.getElementById('tour-offer').click()")
            reader.judge.judge(f"page, tour, step {number}, the offer", sorted(reader.eval(marked)), sorted(step["offer"]["seen"]))
        reader.browser.shot(PICTURES / f"tour-{number}.png")
        if number < len(steps):
            reader.settled("document.getElementById('tour-next').click()")
    reader.eval("document.getElementById('tour-next').click()")
    reader.judge.judge("page, tour, its end", reader.eval("document.getElementById('tour').hidden"), True)


def field(number):
    return f"document.querySelectorAll('#plot input')[{number}]"


def try_plots(reader):
    """A strip over one input, a grid over two, and the value at the pointer and by the keys."""
    reader.press("run")
    reader.judge.judge("page, a strip", reader.plotted(reader.choose("clock")), "91 outputs, 30 no solution")
    reader.plotted(reader.choose("postage"))
    legend = reader.plotted(reader.write(field(0), "0") + ";" + reader.write(field(1), "15"))
    reader.judge.judge("page, a strip from 0 to 15", legend, "12 outputs, 4 no solution")
    box = reader.eval("(box => [box.left, box.top, box.width, box.height])(document.querySelector('#plot svg').getBoundingClientRect())")
    x, y = box[0] + box[2] * (70 + 560 * 7.5 / 16) / 640, box[1] + box[3] / 2
    reader.browser.call("Input.dispatchMouseEvent", type="mouseMoved", x=x, y=y)
    reader.judge.judge("page, the value at the pointer", reader.eval("document.querySelector('#plot output').textContent"), "a = 7: no solution at choose 1")
    reader.eval("document.querySelector('#plot svg').focus()")
    reader.browser.press("ArrowRight", 39)
    reader.judge.judge("page, the value by the keys", reader.eval("document.querySelector('#plot output').textContent"), "a = 8: 1 1")
    reader.plotted(reader.choose("square"))
    legend = reader.plotted(reader.write(field(0), "0") + ";" + reader.write(field(1), "26087635650665564424"))
    reader.judge.judge("page, overflow in a strip", re.sub(r"\d+", "N", legend), "N outputs, N overflow")
    reader.judge.judge("page, a grid", reader.plotted(reader.choose("between")), "221 outputs, 220 no solution")
    reader.browser.shot(PICTURES / "grid.png")
    reader.settled(reader.write(field(0), "11"))
    told = reader.eval("document.querySelector('#plot output').textContent")
    reader.judge.judge("page, no range", told, "These have to be whole numbers, the first at most the second.")
    slow = "let p = 999983 in let q = 999979 in choose (x: int, y: int) where a <= p * x + q * y && p * x + q * y <= b"
    reader.plotted(reader.choose("between"))
    reader.plotted(reader.write("document.getElementById('source-text')", f"def main(a: int, b: int): (int, int) = {slow}"))
    told = reader.eval("document.querySelector('#plot output').textContent")
    reader.judge.judge("page, a plot that takes long", told, "The plot was stopped: it took too long. A smaller range may do.")
    reader.press("run")
    reader.example("teams")
    reader.judge.judge("page, no plot of sets", reader.eval("document.getElementById('plot').hidden"), True)


def try_single(judge):
    """The page in one file, opened from a disk: it asks for nothing else."""
    with chromium.Page(f"{(SITE / 'single.html').as_uri()}#tab=run&example=even") as browser:
        browser.wait("document.body.dataset.answered")
        reader = Reader(browser, judge)
        judge.judge("page, one file", reader.seen()["replies"], lines_of(text_of("even.out")))
        for command, out, err in answers_of("even"):
            seen = reader.press(command)
            written = seen["replies"] if command == "run" else [line for line in seen["written"] if line]
            judge.judge(f"page, one file, {command}", [written, seen["told"]], [lines_of(out), err])
        judge.judge("page, one file, the console", browser.told, [])
        judge.judge("page, one file, what it asks for", [url for url in browser.asked if not url.startswith(("file:", "blob:", "data:"))], [])
        browser.shot(PICTURES / "single.png")


def try_missing(judge):
    """A page whose program is not handed out says so."""
    with tempfile.TemporaryDirectory(prefix="comfusy-site-") as folder:
        for name in ("index.html", "page.js"):
            shutil.copy(SITE / name, folder)
        with chromium.Page(f"{serve(None, folder)}/index.html") as browser:
            browser.wait("document.getElementById('status').textContent === 'the program cannot be loaded'")
            told = browser.eval("document.getElementById('fault-told').textContent")
            judge.judge("page, without its program", told, "comfusy.wasm cannot be fetched: 404")


def try_late(judge):
    """A page whose script comes behind its program knows that the program is there: a call is stopped."""
    with chromium.Page(f"{serve(None, late='/page.js')}/index.html") as browser:
        browser.wait("document.body.dataset.answered")
        try_stop(Reader(browser, judge))


def try_policy(address, judge):
    """Neither the page nor its worker may send anything to another host, and the page in one file to none."""
    other = serve(None)
    sends = f"fetch('{other}/index.html', {{mode: 'no-cors'}}).then(() => 'sent', () => 'refused')"
    place = f"URL.createObjectURL(new Blob([{json.dumps(sends + '.then(postMessage)')}]))"
    works = f"new Promise(done => {{ new Worker({place}).onmessage = event => done(event.data); }})"
    for page in (address, (SITE / "single.html").as_uri()):
        with chromium.Page(page) as browser:
            browser.wait("document.body.dataset.answered")
            judge.judge(f"page, {page}, what is sent elsewhere", [browser.eval(sends), browser.eval(works)], ["refused", "refused"])


PARTS = (
    try_names, try_examples, try_refused, try_editions, try_steps, try_typing, try_flags, try_check, try_stop, try_keys, try_tour, try_home, try_plots,
    take_pictures,
)


def try_page(address, judge):
    with chromium.Page(address) as browser:
        browser.wait("document.body.dataset.answered")
        print(f"web page: the first answer stands {browser.eval('document.body.dataset.first')} ms after opening, beside what else runs here")
        reader = Reader(browser, judge)
        for part in PARTS:
            part(reader)
        try_links(reader, address)
        judge.judge("page, the console", browser.told, [])
        site = address.rpartition("/")[0]
        judge.judge("page, what it asks for", [url for url in browser.asked if not url.startswith((site, "data:", "about:", "blob:"))], [])


def run(judge, site):
    PICTURES.mkdir(exist_ok=True)
    try_page(f"{site}/index.html", judge)
    try_missing(judge)
    try_late(judge)
    try_policy(f"{site}/index.html", judge)
    try_narrow(f"{site}/index.html", judge)
    try_contrast(judge)
    try_single(judge)
