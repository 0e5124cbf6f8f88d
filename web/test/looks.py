"""How the page looks: on narrow screens, light and dark, and to those who hear it; and a picture of each tab, kept in the folder `out`."""

import re
import time

import chromium
from repository import ROOT, TEST

PICTURES = TEST / "out"


def take_pictures(reader):
    for command in ("run", "compile", "pre", "check", "prove", "verify", "home"):
        reader.press(command)
        reader.example("change")
        time.sleep(0.3)
        reader.browser.shot(PICTURES / f"{command}.png")


def try_names(reader):
    """Each thing that can be used has a name that is told."""
    nodes = reader.browser.call("Accessibility.getFullAXTree")["nodes"]
    roles = ("button", "textbox", "combobox", "checkbox", "tab", "tabpanel", "image", "list")
    used = [node for node in nodes if not node["ignored"] and node["role"]["value"] in roles]
    nameless = [node["role"]["value"] for node in used if not node.get("name", {}).get("value")]
    reader.judge.judge("page, things without a name", [len(used) > 10, nameless], [True, []])


def try_narrow(address, judge):
    """On a narrow screen nothing sticks out, light or dark, in no tab and with a fault."""
    for dark in (False, True):
        name = "dark" if dark else "light"
        with chromium.Page(f"{address}#tab=run&example=between", (360, 1500), dark) as browser:
            browser.wait("document.body.dataset.plotted")
            browser.shot(PICTURES / f"narrow-{name}.png")
            judge.judge(f"page, narrow, {name}", browser.eval("document.documentElement.scrollWidth <= 360"), True)
            for shown in ("tab=check&example=between", "tab=home&example=between", "tab=run&example=refused-factors"):
                before = int(browser.eval("document.body.dataset.answered"))
                browser.eval(f"location.hash = {shown!r}")
                browser.wait(f"Number(document.body.dataset.answered) > {before}")
                judge.judge(f"page, narrow, {name}, {shown}", browser.eval("document.documentElement.scrollWidth <= 360"), True)
            seen = browser.eval("(box => box.scrollLeft > 0 && box.scrollWidth > box.clientWidth)(document.getElementById('fault-excerpt'))")
            judge.judge(f"page, narrow, {name}, the caret below a long line", seen, True)
            browser.shot(PICTURES / f"narrow-{name}-refused.png")


def try_contrast(judge):
    """Texts stand out from what lies behind them, 4.5 to 1 at least."""
    style = (ROOT / "web/page/style.css").read_text()
    light, dark = (dict(re.findall(r"--(\w+): (#\w+)", block)) for block in re.findall(r":root \{(.*?)\}", style, re.S))
    texts = ("text", "dim", "accent", "bad", "good", "keyword", "base", "operator", "function", "number", "comment")
    for name, colours in (("light", light), ("dark", dark)):
        low = [(text, back) for text in texts for back in ("back", "side") if contrast(colours[text], colours[back]) < 4.5]
        judge.judge(f"page, contrast, {name}", low, [])


def brightness(colour):
    digits = colour[1:] if len(colour) == 7 else "".join(digit * 2 for digit in colour[1:])
    parts = [int(digits[i : i + 2], 16) / 255 for i in (0, 2, 4)]
    linear = [part / 12.92 if part <= 0.03928 else ((part + 0.055) / 1.055) ** 2.4 for part in parts]
    return 0.2126 * linear[0] + 0.7152 * linear[1] + 0.0722 * linear[2]


def contrast(one, other):
    low, high = sorted((brightness(one), brightness(other)))
    return (high + 0.05) / (low + 0.05)
