const passes = [
{flag: '--plain', tells: 'apply no passes'},
{flag: '--stats', tells: 'count what the passes did'},
];

const commands = [
{
name: 'run',
question: 'What does the program reply to each input line?',
reads: 'lines',
shows: 'replies',
flags: [...passes, {flag: '--jsonl', tells: 'write each reply as JSON'}],
},
{
name: 'compile',
question: 'What is it compiled to? The finished program holds no `choose`.',
reads: 'nothing',
shows: 'written',
flags: passes,
},
{
name: 'pre',
question: 'For which inputs does each `choose` have outputs? `v0` is the first input, and all lines with `need` have to hold.',
reads: 'nothing',
shows: 'written',
flags: [],
},
{
name: 'check',
question: 'Does each `choose` have outputs for all inputs, and are they the only ones?',
reads: 'nothing',
shows: 'written',
flags: [],
},
{
name: 'prove',
question: 'How was each `choose` solved? The steps by which its unknowns go, and the code that they make.',
reads: 'nothing',
shows: 'written',
flags: [],
},
{
name: 'verify',
question: 'Do these steps, whoever wrote them, solve each `choose`?',
reads: 'steps',
shows: 'written',
flags: [],
},
{
name: 'home',
label: 'take home',
asks: 'compile',
question: 'How does it go on without this page? Each file is made here as you save it.',
reads: 'nothing',
shows: 'files',
flags: [],
},
];

function commandOf(name) {
return commands.find(command => command.name === name) ?? commands[0];
}
const words = {
"keyword": [
"def",
"const",
"let",
"in",
"if",
"then",
"else",
"choose",
"given",
"where",
"minimise",
"maximise",
"match",
"with"
],
"base": [
"int",
"bool",
"set"
],
"constant": [
"true",
"false"
],
"operator": [
"union",
"inter",
"diff",
"subset",
"divides"
],
"function": [
"card",
"div",
"mod",
"abs",
"min",
"max"
],
"target": [
"solve",
"arm",
"need",
"give",
"slice",
"fresh",
"neg",
"not"
]
};

const kinds = new Map(Object.entries(words).flatMap(([kind, listed]) => listed.map(word => [word, kind])));
const piece = /#[^\n]*|[A-Za-z_][A-Za-z0-9_]*|[0-9]+|\s+|./gsu;

function kindOfPiece(text) {
if (text[0] === '#') return 'comment';
if (/^[0-9]/.test(text)) return 'number';
return kinds.get(text) ?? '';
}

function pieces(whole) {
return [...whole.matchAll(piece)].map(({0: text, index: at}) => ({text, at, kind: kindOfPiece(text)}));
}

function tokens(whole) {
return pieces(whole).filter(({text, kind}) => kind !== 'comment' && /\S/.test(text));
}

function nodesOf(text) {
return text.split('`').map((part, i) => {
if (i % 2 === 0) return document.createTextNode(part);
const code = document.createElement('code');
code.textContent = part;
return code;
});
}

const byId = id => document.getElementById(id);

function element(name, className, ...children) {
const made = document.createElement(name);
if (className) made.className = className;
made.append(...children);
return made;
}

function button(label, onPress) {
const made = element('button', '', label);
made.type = 'button';
made.addEventListener('click', onPress);
return made;
}

const mostColoured = 100000;

function linesOf(text) {
const lines = [[]], all = text.length > mostColoured ? [{text, at: 0, kind: ''}] : pieces(text);
for (const {text: whole, at, kind} of all) {
let from = at;
whole.split('\n').forEach((part, i) => {
if (i > 0) lines.push([]);
if (part) lines.at(-1).push({text: part, at: from, kind});
from += part.length + 1;
});
}
return lines;
}

class Editor {
#text = element('textarea', '');
#colours = element('div', 'colours');
#place = null;

constructor(box, onEdit) {
this.#text.id = `${box.id}-text`;
Object.assign(this.#text, {spellcheck: false, autocapitalize: 'off', autocomplete: 'off'});
this.#colours.setAttribute('aria-hidden', 'true');
box.append(element('div', 'field', this.#colours, this.#text));
this.#text.addEventListener('input', () => { this.mark(null); onEdit(); });
this.#draw();
}

get text() { return this.#text.value; }

set text(text) {
this.#text.value = text;
this.mark(null);
}

mark(index) {
this.#place = index;
if (index === null) {
this.#text.removeAttribute('aria-invalid');
this.#text.removeAttribute('aria-describedby');
} else {
this.#text.setAttribute('aria-invalid', 'true');
this.#text.setAttribute('aria-describedby', 'fault-told fault-help');
}
this.#draw();
}

goTo(index) {
this.#text.focus({preventScroll: true});
this.#text.setSelectionRange(index, index);
this.#colours.children[this.#lineAt(index)].scrollIntoView({block: 'nearest'});
}

#lineAt(index) {
return this.text.slice(0, index).split('\n').length - 1;
}

#draw() {
const bad = this.#place === null ? -1 : this.#lineAt(this.#place);
this.#colours.replaceChildren(...linesOf(this.text).map((line, i) => this.#row(line, i === bad)));
}

#row(line, isBad) {
const row = element('div', isBad ? 'row bad' : 'row', ...line.map(piece => this.#coloured(piece)));
if (isBad && !row.querySelector('mark')) row.append(element('mark', '', ' '));
return row;
}

#coloured({text, at, kind}) {
const offset = this.#place === null ? -1 : this.#place - at;
if (offset < 0 || offset >= text.length) return element('span', kind, text);
if (kind !== 'comment' && /^\S/.test(text)) return element('span', kind, element('mark', '', text));
const marked = String.fromCodePoint(text.codePointAt(offset));
return element('span', kind, text.slice(0, offset), element('mark', '', marked), text.slice(offset + marked.length));
}
}
const examples = [
{
"name": "clock",
"group": "Run a file",
"title": "clock",
"source": "comfusy 3\ndef main(t: int): (int, int, int) =\n  choose (h: int, m: int, s: int) where 3600 * h + 60 * m + s == t && 0 <= h && 0 <= m < 60 && 0 <= s < 60\n",
"lines": "3661\n0\n86399\n-1\n1000000000000000000000000000\n"
},
{
"name": "area",
"group": "When a program is refused",
"title": "area",
"source": "comfusy 3\n# The area of a field, which may become too long.\ndef main(long: int, wide: int): int = long * wide\n",
"lines": "12 5\n-3 -3\n18446744073709551616 9223372036854775808\ntwelve 5\n12\n"
},
{
"name": "price",
"group": "Write your own program",
"title": "price",
"source": "comfusy 3\n# A price with the tax on it, rounded down to a whole cent.\nconst PERCENT = 20\ndef with_tax(net: int): int = net + div(PERCENT * net, 100)\n\ndef main(apple: int, pear: int): int = with_tax(apple + pear)\n",
"lines": "100 50\n1 2\n"
},
{
"name": "wait",
"group": "Ask about a program",
"title": "wait",
"source": "comfusy 3\n# How many minutes it is to the next noon or midnight. t counts minutes from some midnight.\nconst HALF_DAY = 12 * 60\n\ndef main(t: int): int = choose (wait: int) where HALF_DAY divides t + wait && 0 <= wait < HALF_DAY\n",
"lines": "0\n1\n719\n720\n-30\n"
},
{
"name": "between",
"group": "Tasks",
"title": "between: A number whose double lies between two others",
"source": "comfusy 3\ndef main(a: int, b: int): int = choose (x: int) where a <= 2 * x <= b\n",
"lines": "3 4\n3 3\n-3 -3\n-4 -4\n"
},
{
"name": "change",
"group": "Tasks",
"title": "change: Change in coins",
"source": "comfusy 3\n# Change in coins of 25, 10 and 1: the large coins first.\ndef main(total: int): (int, int, int) =\n  choose (big: int, mid: int, small: int)\n  where 25 * big + 10 * mid + small == total\n    && 0 <= mid && 0 <= small < 10 && 10 * mid + small < 25\n",
"lines": "67\n0\n24\n100\n-1\n"
},
{
"name": "postage",
"group": "Tasks",
"title": "postage: Stamps",
"source": "comfusy 3\n# Stamps of 3 and of 5 for a letter of a cents.\ndef main(a: int): (int, int) = choose (x: int, y: int) where 3 * x + 5 * y == a && 0 <= x && 0 <= y\n",
"lines": "8\n7\n15\n0\n1000000\n"
},
{
"name": "residues",
"group": "Tasks",
"title": "residues: Remainders",
"source": "comfusy 3\n# The number below 15 that leaves the remainders of a by 3 and of b by 5.\ndef main(a: int, b: int): int =\n  choose (x: int; i: int, j: int) where x == a + 3 * i == b + 5 * j && 0 <= x < 15\n",
"lines": "2 3\n0 0\n1 1\n-1 14\n"
},
{
"name": "fives",
"group": "Tasks",
"title": "fives: The nearest multiple",
"source": "comfusy 3\n# The nearest multiple of 5.\ndef main(a: int): int = choose (n: int) where 5 divides n && abs(n - a) <= 2\n",
"lines": "12\n-12\n13\n0\n"
},
{
"name": "pair",
"group": "Tasks",
"title": "pair: Two unknowns in two equations",
"source": "comfusy 3\n# Two numbers from their sum and their difference.\ndef main(sum: int, difference: int): (int, int) =\n  choose (x: int, y: int) where x + y == sum && x - y == difference\n",
"lines": "10 4\n10 -4\n0 0\n10 3\n"
},
{
"name": "years",
"group": "Tasks",
"title": "years: Leap years",
"source": "comfusy 3\n# A leap year from one year to another, and how many days the first of them has.\ndef leap(year: int): bool = 4 divides year && (!(100 divides year) || 400 divides year)\n\ndef main(first: int, last: int): (int, int) =\n  let found = choose (year: int) where first <= year <= last && leap(year) in\n  (if leap(first) then 366 else 365, found)\n",
"lines": "2024 2030\n1897 1903\n1896 1904\n2000 2000\n2026 2027\n"
},
{
"name": "gross",
"group": "Tasks",
"title": "gross: Pay before tax",
"source": "comfusy 3\n# The gross pay that leaves net, where a fifth of what is above 1000 goes as tax, rounded down.\nconst FREE = 1000\ndef tax(gross: int): int = div(max(0, gross - FREE), 5)\n\ndef main(net: int): int = choose (gross: int) where gross - tax(gross) == net\n",
"lines": "800\n1000\n1003\n1004\n1800\n"
},
{
"name": "shillings",
"group": "Tasks",
"title": "shillings: Old money",
"source": "comfusy 3\n# Old money: 12 pence are a shilling, and 20 shillings a pound.\nconst SHILLING = 12\nconst POUND = 20 * SHILLING\n\ndef main(pence: int): (int, int, int) =\n  choose (l: int, s: int, d: int)\n  where POUND * l + SHILLING * s + d == pence && 0 <= s < 20 && 0 <= d < SHILLING\n",
"lines": "0\n239\n240\n1000\n-1\n"
},
{
"name": "shares",
"group": "Tasks",
"title": "shares: Splitting a bill to the cent",
"source": "comfusy 3\n# A bill of so many cents for three: the shares differ by one cent at most, and who comes first pays no less.\ndef main(bill: int): (int, int, int) =\n  choose (a: int, b: int, c: int) where a + b + c == bill && a >= b >= c >= a - 1\n",
"lines": "1000\n1001\n1002\n1\n0\n"
},
{
"name": "dial",
"group": "Tasks",
"title": "dial: Yes or no as an output",
"source": "comfusy 3\n# The minutes since midnight as the clock on the wall shows them, and whether it is afternoon.\ndef main(t: int): (int, int, bool) =\n  choose (h: int, m: int, pm: bool)\n  where 60 * h + m + (if pm then 720 else 0) == t && 0 <= h < 12 && 0 <= m < 60\n",
"lines": "0\n719\n720\n1439\n1440\n"
},
{
"name": "rounded",
"group": "Tasks",
"title": "rounded: Yes or no as an input",
"source": "comfusy 3\n# A multiple of 5 next to a, at least a or at most a.\ndef main(a: int, up: bool): int =\n  choose (n: int) where 5 divides n && (if up then a <= n < a + 5 else a - 5 < n <= a)\n",
"lines": "12 true\n12 false\n15 true\n-12 false\n"
},
{
"name": "parcel",
"group": "Tasks",
"title": "parcel: Yes or no as an input",
"source": "comfusy 3\n# Boxes of 20 kilos and what is left over; a fragile load goes in no box.\ndef main(kilos: int, fragile: bool): (int, int) =\n  choose (boxes: int, rest: int)\n  where 20 * boxes + rest == kilos && 0 <= boxes && 0 <= rest < 20 && (fragile ==> boxes == 0)\n",
"lines": "45 false\n15 true\n45 true\n"
},
{
"name": "teams",
"group": "Tasks",
"title": "teams: An even split of a set",
"source": "comfusy 3\n# Splits a set into two parts that differ by one element at most.\ndef main(s: set): (set, set) =\n  choose (l: set, r: set) where l union r == s && l inter r == {} && abs(card(l) - card(r)) <= 1\n",
"lines": "{}\n{3,1,2,1}\n{-5, 70}\n{9}\n"
},
{
"name": "duo",
"group": "Tasks",
"title": "duo: Two elements of a set",
"source": "comfusy 3\n# Two elements of a set, each as a set of one element.\ndef single(e: set): bool = card(e) == 1\n\ndef main(s: set): (set, set) =\n  choose (a: set, b: set) where single(a) && single(b) && a inter b == {} && a union b subset s\n",
"lines": "{7,3}\n{1,2,3,4}\n{5}\n{}\n"
},
{
"name": "unused",
"group": "Tasks",
"title": "unused: Fresh numbers",
"source": "comfusy 3\n# n numbers that are not in s.\ndef main(s: set, n: int): set = choose (f: set) where f inter s == {} && card(f) == n\n",
"lines": "{0,2} 2\n{0,2} 0\n{0,2} -1\n{} 3\n"
},
{
"name": "parity",
"group": "Tasks",
"title": "parity: Patterns",
"source": "comfusy 3\n# Halves an even number, and takes the half below an odd one with a minus sign.\ndef main(a: int): int =\n  match a with { 2 * i then i ; 2 * i + 1 then -i }\n",
"lines": "10\n11\n0\n-1\n"
},
{
"name": "tickets",
"group": "Tasks",
"title": "tickets: Patterns",
"source": "comfusy 3\n# A match that not each number fits: constants, a pattern with two names, and no arm for the rest.\nconst NONE = 0\nconst ALL = 7\n\ndef main(a: int): int =\n  match a with { NONE then 100 ; ALL then 200 ; 6 * i + 10 * j then i + j }\n",
"lines": "0\n7\n2\n22\n9\n"
},
{
"name": "holidays",
"group": "Tasks",
"title": "holidays: A choose that uses an earlier pick",
"source": "comfusy 3\n# Days as weeks and days; then as many two-week holidays as the weeks hold, and the weeks that are left.\ndef main(days: int): (int, int, int) =\n  let (weeks, rest) = choose (w: int, d: int) where 7 * w + d == days && 0 <= d < 7 in\n  let (holidays, left) = choose (h: int, l: int) where 2 * h + l == weeks && 0 <= l < 2 in\n  (holidays, left, rest)\n",
"lines": "40\n14\n6\n-1\n"
},
{
"name": "apart",
"group": "Tasks",
"title": "apart: A choose that uses an earlier pick",
"source": "comfusy 3\n# The first choose picks 0 or 1 without a look at what comes later.\ndef main(a: int): int =\n  let x = choose (x: int) where 0 <= x <= 1 in\n  choose (y: int) where y == a && x == 1\n",
"lines": "7\n"
},
{
"name": "at-once",
"group": "Tasks",
"title": "at-once: A choose that uses an earlier pick",
"source": "comfusy 3\n# The same in one choose, which picks both at once; x is hidden.\ndef main(a: int): int = choose (y: int; x: int) where 0 <= x <= 1 && y == a && x == 1\n",
"lines": "7\n"
},
{
"name": "quotient",
"group": "Tasks",
"title": "quotient: Coefficients that are inputs",
"source": "comfusy 3\n# The number that a times gives b.\ndef main(a: int, b: int): int = choose (x: int) where a * x == b\n",
"lines": "3 12\n3 10\n0 5\n0 0\n-4 12\n"
},
{
"name": "anystamps",
"group": "Tasks",
"title": "anystamps: Coefficients that are inputs",
"source": "comfusy 3\n# Stamps of p and of q for a letter of a cents: the values of the stamps stand in the line.\ndef main(p: int, q: int, a: int): (int, int) =\n  choose (x: int, y: int) where p * x + q * y == a && 0 <= x && 0 <= y\n",
"lines": "3 5 8\n3 5 7\n7 9 100\n0 5 10\n0 0 10\n170141183460469231731687303715884105727 5 8\n3 5 1000000\n"
},
{
"name": "any-sum",
"group": "Tasks",
"title": "any-sum: Coefficients that are inputs",
"source": "comfusy 3\n# p times x and q times y, which together lie from a to b.\ndef main(p: int, q: int, a: int, b: int): (int, int) = choose (x: int, y: int) where a <= p * x + q * y <= b\n",
"lines": "2 3 7 7\n2097152 2097153 0 9\n3 5 7 7\n"
},
{
"name": "week-short",
"group": "When check complains",
"title": "week-short: no outputs for",
"source": "comfusy 3\n# The week of the month in which a day lies: week 1 has the days 1 to 7.\ndef main(day: int): int = choose (week: int) given 1 <= day <= 31 where 7 * (week - 1) < day < 7 * week\n",
"lines": "1\n6\n7\n8\n31\n"
},
{
"name": "week",
"group": "When check complains",
"title": "week: no outputs for",
"source": "comfusy 3\n# The same, with the last day of each week.\ndef main(day: int): int = choose (week: int) given 1 <= day <= 31 where 7 * (week - 1) < day <= 7 * week\n",
"lines": "1\n6\n7\n8\n31\n32\n"
},
{
"name": "tries-late",
"group": "When check complains",
"title": "tries-late: no outputs for",
"source": "comfusy 3\n# When to try again, and once more: after a pause of at least 30 seconds each time, and within 50 seconds of the failure.\ndef main(failed: int): (int, int) =\n  choose (second: int, third: int) where failed + 30 <= second && second + 30 <= third <= failed + 50\n",
"lines": "0\n1000\n"
},
{
"name": "tries",
"group": "When check complains",
"title": "tries: no outputs for",
"source": "comfusy 3\n# The same, within 90 seconds of the failure.\ndef main(failed: int): (int, int) =\n  choose (second: int, third: int) where failed + 30 <= second && second + 30 <= third <= failed + 90\n",
"lines": "0\n1000\n"
},
{
"name": "pages-loose",
"group": "When check complains",
"title": "pages-loose: two outputs for",
"source": "comfusy 3\n# How many pages a list of so many rows takes, with 20 rows on a page.\ndef main(rows: int): int = choose (pages: int) where rows <= 20 * pages\n",
"lines": "0\n1\n20\n21\n"
},
{
"name": "pages",
"group": "When check complains",
"title": "pages: two outputs for",
"source": "comfusy 3\n# The same, with no page too many.\ndef main(rows: int): int = choose (pages: int) where 20 * (pages - 1) < rows <= 20 * pages\n",
"lines": "0\n1\n20\n21\n"
},
{
"name": "tariff-twice",
"group": "When check complains",
"title": "tariff-twice: two outputs for",
"source": "comfusy 3\n# The postage of a letter in cents, by its weight in grams.\ndef main(grams: int): int =\n  choose (cents: int) given 0 < grams <= 500\n  where grams <= 20 && cents == 85 || 20 <= grams <= 50 && cents == 100 || 50 < grams && cents == 160\n",
"lines": "1\n20\n21\n500\n"
},
{
"name": "tariff",
"group": "When check complains",
"title": "tariff: two outputs for",
"source": "comfusy 3\n# The same, with one price for each weight.\ndef main(grams: int): int =\n  choose (cents: int) given 0 < grams <= 500\n  where grams <= 20 && cents == 85 || 20 < grams <= 50 && cents == 100 || 50 < grams && cents == 160\n",
"lines": "1\n20\n21\n500\n501\n"
},
{
"name": "schedule-fixed",
"group": "When check complains",
"title": "schedule-fixed: What no line says",
"source": "comfusy 3\n# The next minute at which a job starts: each 15 minutes, shifted by so many minutes.\ndef main(now: int, shift: int): int = choose (start: int) where 15 divides start && now <= start < now + 15\n",
"lines": "100 0\n100 5\n"
},
{
"name": "schedule",
"group": "When check complains",
"title": "schedule: What no line says",
"source": "comfusy 3\n# The same, with a start that is shifted.\ndef main(now: int, shift: int): int = choose (start: int) where 15 divides start - shift && now <= start < now + 15\n",
"lines": "100 0\n100 5\n"
},
{
"name": "ways",
"group": "When check complains",
"title": "ways: What given says",
"source": "comfusy 3\n# A ticket is 3 up to 17 years, and 5 from 18 on. No age is below 0, which is said in three ways.\ndef price(age: int, p: int): bool = if age < 18 then p == 3 else p == 5\n\ndef main(way: int, age: int): int =\n  if way == 1 then choose (p: int) given age >= 0 where price(age, p)\n  else if way == 2 then choose (p: int) where age >= 0 && price(age, p)\n  else choose (p: int) where age >= 0 ==> price(age, p)\n",
"lines": "1 -1\n2 -1\n3 -1\n"
},
{
"name": "tens-doubt",
"group": "When check complains",
"title": "tens-doubt: existence undecided",
"source": "comfusy 3\n# Cents rounded to tens: in the middle between two tens, to the even one.\ndef main(cents: int): int =\n  choose (tens: int) where abs(cents - 10 * tens) <= 5 && (abs(cents - 10 * tens) == 5 ==> 2 divides tens)\n",
"lines": "14\n15\n25\n-15\n"
},
{
"name": "tens",
"group": "When check complains",
"title": "tens: existence undecided",
"source": "comfusy 3\n# The same, with ranges in the place of abs.\ndef main(cents: int): int =\n  choose (tens: int) where -5 < cents - 10 * tens < 5 || -5 <= cents - 10 * tens <= 5 && 2 divides tens\n",
"lines": "14\n15\n25\n-15\n"
},
{
"name": "colour",
"group": "When check complains",
"title": "colour: uniqueness undecided",
"source": "comfusy 3\n# A colour that is one number, taken apart into red, green and blue.\ndef main(colour: int): (int, int, int) =\n  choose (red: int, green: int, blue: int) given 0 <= colour < 16777216\n  where 65536 * red + 256 * green + blue == colour && 0 <= green < 256 && 0 <= blue < 256\n",
"lines": "0\n16777215\n66051\n-1\n"
},
{
"name": "shifts-doubt",
"group": "When check complains",
"title": "shifts-doubt: uniqueness undecided",
"source": "comfusy 3\n# Two of the staff for each of three days: nobody who is ill, and nobody on two days in a row.\ndef main(staff: set, ill: set): (set, set, set) =\n  choose (mon: set, tue: set, wed: set) given card(staff diff ill) >= 4\n  where card(mon) == 2 && card(tue) == 2 && card(wed) == 2 && mon union tue union wed subset staff diff ill\n    && mon inter tue == {} && tue inter wed == {}\n",
"lines": "{1, 2, 3, 4, 5} {2}\n{7, 8, 9, 10} {}\n{1, 2, 3} {}\n"
},
{
"name": "beyond",
"group": "When a limit is met",
"title": "beyond",
"source": "comfusy 3\n# A number outside 0 to 10, near a: two cases instead of 2,048.\ndef main(a: int): int = choose (x: int) where (x < 0 || x > 10) && a <= x <= a + 11\n",
"lines": "-5\n0\n5\n20\n"
},
{
"name": "total",
"group": "When a limit is met",
"title": "total",
"source": "comfusy 3\n# The sum has a name of its own, so that it stands in an equation.\ndef main(a: int, b: int): (int, int) =\n  choose (x: int, y: int; sum: int) where 2097152 * x + 2097153 * y == sum && a <= sum <= b\n",
"lines": "5 7\n1 0\n"
},
{
"name": "coins",
"group": "Take it home",
"title": "coins: In a page",
"source": "# Change in coins of 25, 10 and 1: the large coins first.\ndef main(total: int): (int, int, int) =\n  choose (big: int, mid: int, small: int)\n  where 25 * big + 10 * mid + small == total\n    && 0 <= mid && 0 <= small && small < 10 && 10 * mid + small < 25\n",
"lines": "67\n0\n24\n100\n-1\n"
},
{
"name": "split",
"group": "Take it home",
"title": "split: In C",
"source": "# Splits a set into two parts that differ by one element at most.\ndef main(s: set): (set, set) =\n  choose (l: set, r: set)\n  where l union r == s && l inter r == {} && card(l) - card(r) <= 1 && card(r) - card(l) <= 1\n",
"lines": "{}\n{3,1,2,1}\n{-5, 70}\n{9}\n"
},
{
"name": "even",
"group": "Certificates",
"title": "even",
"source": "def main(a: int, b: int): int = choose (x: int) where a <= 2 * x && 2 * x <= b\n",
"lines": "3 4\n3 3\n-3 -3\n-4 -4\n"
},
{
"name": "steps-other",
"group": "Certificates",
"title": "other: Steps of your own",
"source": "def main(a: int, b: int): int = choose (x: int) where a <= 2 * x && 2 * x <= b\n",
"lines": "",
"steps": "# The lower bound of x gets a search variable, where `prove` divides.\nchoose 1 { case { search 3 lower; drop 3; last 0; clean; } }\nmain (int, int): int = solve 1 {\narm [2] {\nneed (2 divides (v0 + v2));\nlet div((v0 + v2), 2);\nneed ((v1 + (-2 * v3)) >= 0);\nlet v3;\nlet v4;\ngive v5\n}\n}\n"
},
{
"name": "steps-wide",
"group": "Certificates",
"title": "wide: Steps of your own",
"source": "# The search of the elimination is too long here; the steps beside it need none.\ndef main(a: int, b: int): (int, int) =\n  choose (x: int, y: int) where a <= 2097152 * x + 2097153 * y && 2097152 * x + 2097153 * y <= b\n",
"lines": "",
"steps": "# With u for the sum and another unknown v, x is -u + 2097153 * v, and y is u - 2097152 * v.\nchoose 1 {\ncase {\nmix 3 4 -1 2097153 1 -2097152;\ndrop 5;\ndrop 6;\nclean;\n}\n}\nmain (int, int): (int, int) = solve 1 {\narm [] {\nneed (((-1 * v0) + v1) >= 0);\nlet 0;\nlet v0;\nlet ((-1 * v3) + (2097153 * v2));\nlet (v3 + (-2097152 * v2));\ngive (v4, v5)\n}\n}\n"
},
{
"name": "steps-unclean",
"group": "Certificates",
"title": "unclean: rejected at",
"source": "def main(a: int, b: int): int = choose (x: int) where a <= 2 * x && 2 * x <= b\n",
"lines": "",
"steps": "# The first `clean` is left out.\nchoose 1 {\ncase {\ndrop 3;\nclean;\n}\n}\ncomfusy 2\nmain (int, int): int = solve 1 {\narm [] {\nlet div((-1 * v0), 2);\nlet div(v1, 2);\nneed ((v2 + v3) >= 0);\nlet (-1 * v2);\ngive v4\n}\n}\n"
},
{
"name": "steps-needless",
"group": "Certificates",
"title": "needless: rejected at",
"source": "def main(a: int, b: int): int = choose (x: int) where a <= 2 * x && 2 * x <= b\n",
"lines": "",
"steps": "# The last need is left out.\nchoose 1 {\ncase {\nclean;\ndrop 3;\nclean;\n}\n}\ncomfusy 2\nmain (int, int): int = solve 1 {\narm [] {\nlet div((-1 * v0), 2);\nlet div(v1, 2);\nlet (-1 * v2);\ngive v4\n}\n}\n"
},
{
"name": "refused-misspelled",
"group": "Refused",
"title": "misspelled",
"source": "comfusy 3\ndef main(t: int): (int, int, int) =\n  choose (h: int, m: int, s: int)\n  where hours * 3600 + m * 60 + s == t\n",
"lines": ""
},
{
"name": "refused-single-equals",
"group": "Refused",
"title": "single-equals",
"source": "comfusy 3\ndef main(a: int): int = choose (x: int) where x = a\n",
"lines": ""
},
{
"name": "refused-nameless",
"group": "Refused",
"title": "nameless",
"source": "comfusy 3\ndef double(a: int): int = 2 * a\n",
"lines": ""
},
{
"name": "refused-many-cases",
"group": "Refused",
"title": "many-cases",
"source": "comfusy 3\ndef main(): int = choose (x: int) where x != 0 && x != 1 && x != 2 && x != 3 && x != 4 && x != 5\n   && x != 6 && x != 7 && x != 8 && x != 9 && x != 10\n",
"lines": ""
},
{
"name": "refused-long-search",
"group": "Refused",
"title": "long-search",
"source": "comfusy 3\ndef main(a: int, b: int): (int, int) =\n  choose (x: int, y: int) where a <= 2097152 * x + 2097153 * y <= b\n",
"lines": ""
},
{
"name": "refused-many-sets",
"group": "Refused",
"title": "many-sets",
"source": "comfusy 3\ndef main(s: set): (set, set, set, set, set, set) =\n  choose (a: set, b: set, c: set, d: set, e: set, f: set)\n  where a union b union c union d union e union f == s\n",
"lines": ""
},
{
"name": "refused-long-factors",
"group": "Refused",
"title": "long-factors",
"source": "comfusy 3\nconst FACTOR = 18446744073709551616\ndef main(a: int, b: int): (int, int) =\n  choose (x: int, y: int) where FACTOR * x + y == a && x + FACTOR * y == b\n",
"lines": ""
},
{
"name": "refused-copies",
"group": "Refused",
"title": "copies",
"source": "comfusy 3\ndef f0(a: int): int = a\ndef f1(a: int): int = f0(a) + f0(a)\ndef f2(a: int): int = f1(a) + f1(a)\ndef f3(a: int): int = f2(a) + f2(a)\ndef f4(a: int): int = f3(a) + f3(a)\ndef f5(a: int): int = f4(a) + f4(a)\ndef f6(a: int): int = f5(a) + f5(a)\ndef f7(a: int): int = f6(a) + f6(a)\ndef f8(a: int): int = f7(a) + f7(a)\ndef f9(a: int): int = f8(a) + f8(a)\ndef f10(a: int): int = f9(a) + f9(a)\ndef f11(a: int): int = f10(a) + f10(a)\ndef f12(a: int): int = f11(a) + f11(a)\ndef f13(a: int): int = f12(a) + f12(a)\ndef f14(a: int): int = f13(a) + f13(a)\ndef f15(a: int): int = f14(a) + f14(a)\ndef f16(a: int): int = f15(a) + f15(a)\ndef f17(a: int): int = f16(a) + f16(a)\ndef f18(a: int): int = f17(a) + f17(a)\ndef main(a: int): int = f18(a)\n",
"lines": ""
},
{
"name": "refused-division",
"group": "Refused",
"title": "division",
"source": "comfusy 3\ndef main(a: int): int = a / 2\n",
"lines": ""
},
{
"name": "refused-divisor",
"group": "Refused",
"title": "divisor",
"source": "comfusy 3\ndef main(a: int, b: int): int = div(a, b)\n",
"lines": ""
},
{
"name": "refused-below-zero",
"group": "Refused",
"title": "below-zero",
"source": "comfusy 3\ndef main(a: int): int = div(a, -2)\n",
"lines": ""
},
{
"name": "refused-zero",
"group": "Refused",
"title": "zero",
"source": "comfusy 3\nconst ZERO = 7 - 7\ndef main(a: int): int = div(a, ZERO)\n",
"lines": ""
},
{
"name": "refused-varying",
"group": "Refused",
"title": "varying",
"source": "comfusy 3\ndef five(): int = 5\nconst LIMIT = five() + 1\ndef main(a: int): int = min(a, LIMIT)\n",
"lines": ""
},
{
"name": "refused-two-ways",
"group": "Refused",
"title": "two-ways",
"source": "comfusy 3\ndef main(a: int): bool = 0 < a > 5\n",
"lines": ""
},
{
"name": "refused-bare-divides",
"group": "Refused",
"title": "bare-divides",
"source": "comfusy 3\ndef main(a: int): bool = ! 2 divides a\n",
"lines": ""
},
{
"name": "refused-last-comma",
"group": "Refused",
"title": "last-comma",
"source": "comfusy 3\ndef main(a: int): (int, int) = (a, a + 1,)\n",
"lines": ""
},
{
"name": "refused-choose-in-a-sum",
"group": "Refused",
"title": "choose-in-a-sum",
"source": "comfusy 3\ndef main(a: int): int = 1 + choose (x: int) where x == a\n",
"lines": ""
},
{
"name": "refused-missing-else",
"group": "Refused",
"title": "missing-else",
"source": "comfusy 3\ndef main(a: int): int = if a < 0 then 0 - a\n",
"lines": ""
},
{
"name": "refused-reserved-word",
"group": "Refused",
"title": "reserved-word",
"source": "comfusy 3\ndef main(given: int): int = given + 1\n",
"lines": ""
},
{
"name": "refused-hidden-alone",
"group": "Refused",
"title": "hidden-alone",
"source": "comfusy 3\ndef main(a: int): int = choose (; k: int) where 2 * k == a\n",
"lines": ""
},
{
"name": "refused-number-for-truth",
"group": "Refused",
"title": "number-for-truth",
"source": "comfusy 3\ndef main(a: int): int = a && true\n",
"lines": ""
},
{
"name": "refused-pair-for-one",
"group": "Refused",
"title": "pair-for-one",
"source": "comfusy 3\ndef main(a: int): int = (a, a)\n",
"lines": ""
},
{
"name": "refused-below",
"group": "Refused",
"title": "below",
"source": "comfusy 3\ndef main(a: int): int = double(a)\ndef double(a: int): int = 2 * a\n",
"lines": ""
},
{
"name": "refused-too-many",
"group": "Refused",
"title": "too-many",
"source": "comfusy 3\ndef half(a: int): int = div(a, 2)\ndef main(a: int): int = half(a, 2)\n",
"lines": ""
},
{
"name": "refused-same-name",
"group": "Refused",
"title": "same-name",
"source": "comfusy 3\ndef main(a: int): int = choose (x: int, x: int) where x == a\n",
"lines": ""
},
{
"name": "refused-taken",
"group": "Refused",
"title": "taken",
"source": "comfusy 3\nconst LIMIT = 5\ndef main(LIMIT: int): int = LIMIT\n",
"lines": ""
},
{
"name": "refused-long-number",
"group": "Refused",
"title": "long-number",
"source": "comfusy 3\ndef main(a: int): int = a + 170141183460469231731687303715884105728\n",
"lines": ""
},
{
"name": "refused-output-in-given",
"group": "Refused",
"title": "output-in-given",
"source": "comfusy 3\ndef main(a: int): int = choose (x: int) given x > 0 where x == a\n",
"lines": ""
},
{
"name": "refused-factors",
"group": "Refused",
"title": "factors",
"source": "comfusy 3\ndef main(a: int): (int, int) = choose (x: int, y: int) where x * y == a\n",
"lines": ""
},
{
"name": "refused-divided-factor",
"group": "Refused",
"title": "divided-factor",
"source": "comfusy 3\ndef main(a: int): int = choose (x: int) where div(12, 2) * x == a\n",
"lines": ""
},
{
"name": "refused-elements",
"group": "Refused",
"title": "elements",
"source": "comfusy 3\ndef main(s: set): int = choose (x: int) where {x} subset s\n",
"lines": ""
},
{
"name": "refused-called-choose",
"group": "Refused",
"title": "called-choose",
"source": "comfusy 3\ndef half(a: int): int = choose (x: int) where a - 1 <= 2 * x <= a\ndef main(a: int): int = choose (y: int) where half(y) == a\n",
"lines": ""
},
{
"name": "seconds",
"group": "Language 2",
"title": "seconds",
"source": "def main(t: int): (int, int, int) =\n  choose (h: int, m: int, s: int)\n  where h * 3600 + m * 60 + s == t && 0 <= h && 0 <= m && m <= 59 && 0 <= s && s <= 59\n",
"lines": "3661\n0\n86399\n-1\n1000000000000000000000000000\n"
},
{
"name": "square",
"group": "Language 2",
"title": "square",
"source": "# A square, which may become too long.\ndef main(a: int): int = a * a\n",
"lines": "12\n-3\n18446744073709551616\ntwelve\n12 13\n"
},
{
"name": "double",
"group": "Language 2",
"title": "double",
"source": "# An ordinary function of a name, called twice.\ndef double(a: int): int = 2 * a\n\ndef main(a: int): int = double(double(a)) + 1\n",
"lines": "5\n-1\n"
},
{
"name": "noon",
"group": "Language 2",
"title": "noon",
"source": "# How many minutes it is to the next noon or midnight. t counts minutes from some midnight.\ndef main(t: int): int =\n  choose (wait: int) where 720 divides t + wait && 0 <= wait && wait < 720\n",
"lines": "0\n1\n719\n720\n-30\n"
},
{
"name": "stamps",
"group": "Language 2",
"title": "stamps",
"source": "# Stamps of 3 and of 5 for a letter of a cents.\ndef main(a: int): (int, int) =\n  choose (x: int, y: int) where 3 * x + 5 * y == a && 0 <= x && 0 <= y\n",
"lines": "8\n7\n15\n0\n1000000\n"
},
{
"name": "remainders",
"group": "Language 2",
"title": "remainders",
"source": "# The number below 15 that leaves the remainders of a by 3 and of b by 5.\ndef main(a: int, b: int): int =\n  choose (x: int) where 3 divides x - a && 5 divides x - b && 0 <= x && x < 15\n",
"lines": "2 3\n0 0\n1 1\n-1 14\n"
},
{
"name": "nearest",
"group": "Language 2",
"title": "nearest",
"source": "# The nearest multiple of 5.\ndef main(a: int): int =\n  choose (n: int) where 5 divides n && abs(n - a) <= 2\n",
"lines": "12\n-12\n13\n0\n"
},
{
"name": "equations",
"group": "Language 2",
"title": "equations",
"source": "# Two numbers from their sum and their difference.\ndef main(sum: int, difference: int): (int, int) =\n  choose (x: int, y: int) where x + y == sum && x - y == difference\n",
"lines": "10 4\n10 -4\n0 0\n10 3\n"
},
{
"name": "leap",
"group": "Language 2",
"title": "leap",
"source": "# A leap year from one year to another, and how many days the first of them has.\ndef leap(year: int): bool = 4 divides year && (!(100 divides year) || 400 divides year)\n\ndef main(first: int, last: int): (int, int) =\n  let days = if leap(first) then 366 else 365 in\n  let found = choose (year: int)\n    where first <= year && year <= last && 4 divides year && (!(100 divides year) || 400 divides year) in\n  (days, found)\n",
"lines": "2024 2030\n1897 1903\n1896 1904\n2000 2000\n2026 2027\n"
},
{
"name": "oldmoney",
"group": "Language 2",
"title": "oldmoney",
"source": "# Old money: 12 pence are a shilling, and 20 shillings a pound.\ndef main(pence: int): (int, int, int) =\n  choose (l: int, s: int, d: int)\n  where 240 * l + 12 * s + d == pence && 0 <= s && s < 20 && 0 <= d && d < 12\n",
"lines": "0\n239\n240\n1000\n-1\n"
},
{
"name": "bill",
"group": "Language 2",
"title": "bill",
"source": "# A bill of so many cents for three: the shares differ by one cent at most, and who comes first pays no less.\ndef main(bill: int): (int, int, int) =\n  choose (a: int, b: int, c: int)\n  where a + b + c == bill && a >= b && b >= c && a <= c + 1\n",
"lines": "1000\n1001\n1002\n1\n0\n"
},
{
"name": "two",
"group": "Language 2",
"title": "two",
"source": "# Two elements of a set, each as a set of one element.\ndef main(s: set): (set, set) =\n  choose (a: set, b: set)\n  where card(a) == 1 && card(b) == 1 && a inter b == {} && a union b subset s\n",
"lines": "{7,3}\n{1,2,3,4}\n{5}\n{}\n"
},
{
"name": "fresh",
"group": "Language 2",
"title": "fresh",
"source": "# n numbers that are not in s.\ndef main(s: set, n: int): set =\n  choose (f: set) where f inter s == {} && card(f) == n\n",
"lines": "{0,2} 2\n{0,2} 0\n{0,2} -1\n{} 3\n"
},
{
"name": "patterns",
"group": "Language 2",
"title": "patterns",
"source": "# Halves an even number, and takes the half below an odd one with a minus sign.\ndef main(a: int): int =\n  match a with { 2 * i then i ; 2 * i + 1 then -i }\n",
"lines": "10\n11\n0\n-1\n"
},
{
"name": "fizz",
"group": "Language 2",
"title": "fizz",
"source": "# A match that not each number fits: literals, a pattern with two names, and no arm for the rest.\ndef main(a: int): int =\n  match a with { 0 then 100 ; 7 then 200 ; 6 * i + 10 * j then i + j }\n",
"lines": "0\n7\n2\n22\n9\n"
},
{
"name": "earlier",
"group": "Language 2",
"title": "earlier",
"source": "# Days as weeks and days; then as many two-week holidays as the weeks hold, and the weeks that are left.\ndef main(days: int): (int, int, int) =\n  let (weeks, rest) = choose (w: int, d: int) where 7 * w + d == days && 0 <= d && d < 7 in\n  let (holidays, left) = choose (h: int, l: int) where 2 * h + l == weeks && 0 <= l && l < 2 in\n  (holidays, left, rest)\n",
"lines": "40\n14\n6\n-1\n"
},
{
"name": "commits",
"group": "Language 2",
"title": "commits",
"source": "# The first choose picks 0 or 1 without a look at what comes later.\ndef main(a: int): int =\n  let x = choose (x: int) where 0 <= x && x <= 1 in\n  choose (y: int) where y == a && x == 1\n",
"lines": "7\n"
},
{
"name": "together",
"group": "Language 2",
"title": "together",
"source": "# The same in one choose, which picks both at once.\ndef main(a: int): int =\n  let (x, y) = choose (x: int, y: int) where 0 <= x && x <= 1 && y == a && x == 1 in y\n",
"lines": "7\n"
},
{
"name": "missing",
"group": "Language 2",
"title": "missing",
"source": "# No x is left for 5.\ndef main(a: int): int = choose (x: int) where x == a && a != 5\n",
"lines": "4\n5\n"
},
{
"name": "always",
"group": "Language 2",
"title": "always",
"source": "# The same with an answer for 5 too.\ndef main(a: int): int = choose (x: int) where (x == a && a != 5) || (x == 0 && a == 5)\n",
"lines": "4\n5\n"
},
{
"name": "guarded",
"group": "Language 2",
"title": "guarded",
"source": "# A test around the choose: the program never asks for 5, but the relation still has nothing there.\ndef main(a: int): int = if a == 5 then 0 else choose (x: int) where x == a && a != 5\n",
"lines": "4\n5\n"
},
{
"name": "several",
"group": "Language 2",
"title": "several",
"source": "# Both 0 and 1 will do for 1, and nothing for 2.\ndef main(a: int): int = choose (x: int) where 0 <= x && x <= a && a <= 1\n",
"lines": "0\n1\n2\n-1\n"
},
{
"name": "one",
"group": "Language 2",
"title": "one",
"source": "# One number for each a: a itself, held between 0 and 1.\ndef main(a: int): int =\n  choose (x: int) where (a < 0 && x == 0) || (0 <= a && a <= 1 && x == a) || (a > 1 && x == 1)\n",
"lines": "0\n1\n2\n-1\n"
},
{
"name": "combination",
"group": "Language 2",
"title": "combination",
"source": "# p times x and q times y, which together lie from a to b.\ndef main(p: int, q: int, a: int, b: int): (int, int) =\n  choose (x: int, y: int) where a <= p * x + q * y && p * x + q * y <= b\n",
"lines": "2 3 7 7\n2097152 2097153 0 9\n3 5 7 7\n"
},
{
"name": "outside",
"group": "Language 2",
"title": "outside",
"source": "# A number outside 0 to 10, near a: two cases instead of 2,048.\ndef main(a: int): int =\n  choose (x: int) where (x < 0 || x > 10) && a <= x && x <= a + 11\n",
"lines": "-5\n0\n5\n20\n"
},
{
"name": "named",
"group": "Language 2",
"title": "named",
"source": "# The sum has a name of its own, so that it stands in an equation.\ndef main(a: int, b: int): (int, int) =\n  let (x, y, sum) =\n    choose (x: int, y: int, sum: int)\n    where sum == 2097152 * x + 2097153 * y && a <= sum && sum <= b in\n  (x, y)\n",
"lines": "5 7\n1 0\n"
},
{
"name": "hiding",
"group": "Language 2",
"title": "hiding",
"source": "# A name may be used again further in; there it stands for the new value.\ndef main(x: int): int =\n  let x = x + 1 in\n  let y = choose (x: int) where 2 * x == 8 in\n  10 * x + y\n",
"lines": "1\n5\n"
},
{
"name": "spaces",
"group": "Language 2",
"title": "spaces",
"source": "# A function and a variable may have one name.\ndef next(next: int): int = next + 1\ndef main(main: int): int = let next = next(main) in next(next)\n",
"lines": "1\n"
},
{
"name": "refused-cases",
"group": "Refused in language 2",
"title": "cases",
"source": "def main(): int = choose (x: int) where x != 0 && x != 1 && x != 2 && x != 3 && x != 4 && x != 5\n   && x != 6 && x != 7 && x != 8 && x != 9 && x != 10\n",
"lines": ""
},
{
"name": "refused-search",
"group": "Refused in language 2",
"title": "search",
"source": "def main(a: int, b: int): (int, int) =\n  choose (x: int, y: int) where a <= 2097152 * x + 2097153 * y && 2097152 * x + 2097153 * y <= b\n",
"lines": ""
},
{
"name": "refused-sets",
"group": "Refused in language 2",
"title": "sets",
"source": "def main(s: set): (set, set, set, set, set, set) =\n  choose (a: set, b: set, c: set, d: set, e: set, f: set)\n  where a union b union c union d union e union f == s\n",
"lines": ""
},
{
"name": "refused-coefficient",
"group": "Refused in language 2",
"title": "coefficient",
"source": "def main(a: int, b: int): (int, int) =\n  choose (x: int, y: int) where 18446744073709551616 * x + y == a && x + 18446744073709551616 * y == b\n",
"lines": ""
},
{
"name": "refused-weight",
"group": "Refused in language 2",
"title": "weight",
"source": "def f0(a: int): int = a\ndef f1(a: int): int = f0(a) + f0(a)\ndef f2(a: int): int = f1(a) + f1(a)\ndef f3(a: int): int = f2(a) + f2(a)\ndef f4(a: int): int = f3(a) + f3(a)\ndef f5(a: int): int = f4(a) + f4(a)\ndef f6(a: int): int = f5(a) + f5(a)\ndef f7(a: int): int = f6(a) + f6(a)\ndef f8(a: int): int = f7(a) + f7(a)\ndef f9(a: int): int = f8(a) + f8(a)\ndef f10(a: int): int = f9(a) + f9(a)\ndef f11(a: int): int = f10(a) + f10(a)\ndef f12(a: int): int = f11(a) + f11(a)\ndef f13(a: int): int = f12(a) + f12(a)\ndef f14(a: int): int = f13(a) + f13(a)\ndef f15(a: int): int = f14(a) + f14(a)\ndef f16(a: int): int = f15(a) + f15(a)\ndef f17(a: int): int = f16(a) + f16(a)\ndef f18(a: int): int = f17(a) + f17(a)\ndef main(a: int): int = f18(a)\n",
"lines": ""
},
{
"name": "refused-typo",
"group": "Refused in language 2",
"title": "typo",
"source": "def main(t: int): (int, int, int) =\n  choose (h: int, m: int, s: int)\n  where hours * 3600 + m * 60 + s == t\n",
"lines": ""
},
{
"name": "refused-slash",
"group": "Refused in language 2",
"title": "slash",
"source": "def main(a: int): int = a / 2\n",
"lines": ""
},
{
"name": "refused-negative-divisor",
"group": "Refused in language 2",
"title": "negative-divisor",
"source": "def main(a: int): int = div(a, -2)\n",
"lines": ""
},
{
"name": "refused-one-equals",
"group": "Refused in language 2",
"title": "one-equals",
"source": "def main(a: int): int = choose (x: int) where x = a\n",
"lines": ""
},
{
"name": "refused-not-divides",
"group": "Refused in language 2",
"title": "not-divides",
"source": "def main(a: int): bool = ! 2 divides a\n",
"lines": ""
},
{
"name": "refused-trailing-comma",
"group": "Refused in language 2",
"title": "trailing-comma",
"source": "def main(a: int): (int, int) = (a, a + 1,)\n",
"lines": ""
},
{
"name": "refused-bare-choose",
"group": "Refused in language 2",
"title": "bare-choose",
"source": "def main(a: int): int = 1 + choose (x: int) where x == a\n",
"lines": ""
},
{
"name": "refused-no-else",
"group": "Refused in language 2",
"title": "no-else",
"source": "def main(a: int): int = if a < 0 then 0 - a\n",
"lines": ""
},
{
"name": "refused-mismatch",
"group": "Refused in language 2",
"title": "mismatch",
"source": "def main(a: int): int = a && true\n",
"lines": ""
},
{
"name": "refused-result",
"group": "Refused in language 2",
"title": "result",
"source": "def main(a: int): int = (a, a)\n",
"lines": ""
},
{
"name": "refused-later",
"group": "Refused in language 2",
"title": "later",
"source": "def main(a: int): int = double(a)\ndef double(a: int): int = 2 * a\n",
"lines": ""
},
{
"name": "refused-no-main",
"group": "Refused in language 2",
"title": "no-main",
"source": "def double(a: int): int = 2 * a\n",
"lines": ""
},
{
"name": "refused-count",
"group": "Refused in language 2",
"title": "count",
"source": "def half(a: int): int = div(a, 2)\ndef main(a: int): int = half(a, 2)\n",
"lines": ""
},
{
"name": "refused-twice",
"group": "Refused in language 2",
"title": "twice",
"source": "def main(a: int): int = choose (x: int, x: int) where x == a\n",
"lines": ""
},
{
"name": "refused-long-literal",
"group": "Refused in language 2",
"title": "long-literal",
"source": "def main(a: int): int = a + 170141183460469231731687303715884105728\n",
"lines": ""
},
{
"name": "refused-product",
"group": "Refused in language 2",
"title": "product",
"source": "def main(a: int): (int, int) = choose (x: int, y: int) where x * y == a\n",
"lines": ""
},
{
"name": "refused-element",
"group": "Refused in language 2",
"title": "element",
"source": "def main(s: set): int = choose (x: int) where {x} subset s\n",
"lines": ""
},
{
"name": "refused-chain",
"group": "Refused in language 2",
"title": "chain",
"source": "def main(a: int): int = choose (x: int) where 0 < x < a\n",
"lines": ""
},
{
"name": "refused-reserved",
"group": "Refused in language 2",
"title": "reserved",
"source": "def main(min: int, max: int): int = max - min\n",
"lines": ""
},
{
"name": "refused-truth-output",
"group": "Refused in language 2",
"title": "truth-output",
"source": "def main(a: int): bool = choose (p: bool) where p == (a < 0)\n",
"lines": ""
},
{
"name": "refused-variable-divisor",
"group": "Refused in language 2",
"title": "variable-divisor",
"source": "def main(a: int, b: int): int = div(a, b)\n",
"lines": ""
}
];
const programSum = "511f80e03339b74f3038677e6dd121787c37d7acac4717e642be51e145677cca";

const sourceName = 'program.cf';

function inputsOfMain(source) {
const all = tokens(source).map(token => token.text);
const start = all.findIndex((text, i) => text === 'def' && all[i + 1] === 'main' && all[i + 2] === '(');
const end = all.indexOf(')', start);
if (start < 0 || end < 0) return null;
const listed = all.slice(start + 3, end).join(' ');
const inputs = listed === '' ? [] : listed.split(',').map(part => /^\s*(\w+) : (\w+)\s*$/.exec(part));
return inputs.every(Boolean) ? inputs.map(([, name, type]) => ({name, type})) : null;
}

function isOfEdition3(source) {
const [word, edition] = tokens(source).map(token => token.text);
return word === 'comfusy' && Number(edition) === 3;
}

function indexAt(text, line, column) {
const rows = text.split('\n');
const before = rows.slice(0, line - 1).reduce((sum, row) => sum + row.length + 1, 0);
const bytes = new TextEncoder().encode(rows[line - 1] ?? '').subarray(0, column - 1);
return Math.min(before + new TextDecoder().decode(bytes).length, text.length);
}

function numberedPlaces(text) {
const all = tokens(text), found = [], braces = [];
all.forEach((token, i) => {
if (token.text === 'choose' || token.text === 'match') found.push(token.at);
if (token.text === '{') braces.push(i > 0 && all[i - 1].text === 'with');
const isPattern = braces.at(-1) && (token.text === '{' || token.text === ';');
if (token.text === '}') braces.pop();
if (isPattern && hasName(all, i + 1)) found.push(all[i + 1].at);
});
return found;
}

function hasName(all, from) {
for (let i = from; i < all.length && all[i].text !== 'then'; i++) {
if (/^[A-Za-z_]/.test(all[i].text)) return true;
}
return false;
}

function stepPlace(steps, choose, ofCase, step) {
const all = tokens(steps);
const at = (from, isWanted) => all.findIndex((token, i) => i >= from && isWanted(token.text, i));
let place = at(0, (text, i) => text === 'choose' && all[i + 1]?.text === choose);
for (let i = 0; i < ofCase && place >= 0; i++) place = at(place + 1, text => text === 'case');
if (place < 0 || ofCase === 0) return all[place]?.at;
place += 2;
for (let i = 1; i < step; i++) place = at(place, text => text === ';') + 1;
return all[place]?.at;
}

function rejectedPlace(told, steps) {
const found = /^choose (\d+): rejected at case (\d+) step (\d+): /.exec(told);
const index = found && stepPlace(steps, found[1], Number(found[2]), Number(found[3]));
return index === null || index === undefined ? null : {file: 'steps', index};
}

function placeOf(told, source, steps) {
const behind = told.startsWith(`${sourceName}:`) ? told.slice(sourceName.length) : told;
const found = /^(?:(steps )?line |:)(\d+)(?: column |:)(\d+): /.exec(behind);
if (found) {
const file = found[1] ? 'steps' : 'source';
return {file, index: indexAt(file === 'steps' ? steps : source, Number(found[2]), Number(found[3]))};
}
const number = /^(?:choose|match) (\d+): /.exec(told)?.[1];
const index = number === undefined ? undefined : numberedPlaces(source)[number - 1];
return rejectedPlace(told, steps) ?? (index === undefined ? null : {file: 'source', index});
}

function partsOf(told) {
const [what, ...rest] = told.split('\n');
const at = rest.findLastIndex(line => line.startsWith('help: '));
return {what, excerpt: (at < 0 ? rest : rest.slice(0, at)).join('\n'), help: at < 0 ? '' : rest[at]};
}

class Faults {
#editors;
place = null;

constructor(editors, onRenew) {
this.#editors = editors;
byId('fault-go').addEventListener('click', () => this.goTo(this.place));
byId('fault-renew').addEventListener('click', onRenew);
}

placeOf(line) {
return placeOf(line, this.#editors.source.text, this.#editors.steps.text);
}

goTo({file, index}) {
this.#editors[file].goTo(index);
}

show(told, help, isOld) {
const parts = partsOf(told);
this.place = told ? this.placeOf(told) : null;
for (const [file, editor] of Object.entries(this.#editors)) editor.mark(this.place?.file === file ? this.place.index : null);
byId('fault').hidden = !told;
byId('fault-told').textContent = parts.what;
this.#showExcerpt(parts.excerpt);
byId('fault-help').replaceChildren(...nodesOf(parts.help || help));
byId('fault-go').hidden = this.place === null;
byId('fault-old').hidden = !isOld;
}

#showExcerpt(excerpt) {
const box = byId('fault-excerpt'), lengths = excerpt.split('\n').map(line => line.length);
box.textContent = excerpt;
box.hidden = excerpt === '';
if (!box.hidden) box.scrollLeft = box.scrollWidth * lengths.at(-1) / Math.max(...lengths) - box.clientWidth / 2;
}
}
const tour = [
{
title: 'State it',
text: [
'This program takes a number of seconds apart. `main` takes one number, `t`, and gives three. `choose` names them: hours, minutes and seconds.',
'What stands behind `where` is the relation. It says when three numbers are right: together they make `t` seconds, and minutes and seconds lie ' +
'between 0 and 59. Nobody says how to find them. The first line says in which edition of the language the text is written.',
],
example: 'clock',
tab: 'run',
seen: [],
},
{
title: 'Run it',
text: [
'Each input line has its reply beside it. `3661` seconds are an hour, a minute and a second: `1 1 1`.',
'Change a line, or add one below. It is answered as you type, and numbers may have up to 39 digits. The plot below shows the replies to a whole ' +
'range of inputs.',
],
example: 'clock',
tab: 'run',
seen: ['1 1 1'],
},
{
title: 'Why no solution',
text: [
'For `-1` the reply is `no solution at choose 1`. It does not mean that nothing was found: it is said only where no outputs are right, and that ' +
'is proved. The relation says `0 <= h`, so no hours are right for less than nothing.',
'Take that out, and `-1` is the last second of the day before.',
],
example: 'clock',
tab: 'run',
seen: ['no solution at choose 1'],
offer: {label: 'Take it out', from: '0 <= h && ', to: '', seen: ['-1 59 59']},
},
{
title: 'When there is one',
text: [
'Two numbers are wanted for their sum and their difference. For 10 and 3 there are none. `pre` says exactly when there are some, for all of the ' +
'infinitely many inputs.',
'`v0` is the first input and `v1` the second. There are two such numbers exactly where 2 divides `-sum - difference`: where both are even, or ' +
'both are odd. The plot of the run tab shows the same.',
],
example: 'pair',
tab: 'pre',
seen: ['need (2 divides ((-1 * v0) + (-1 * v1)));'],
},
{
title: 'Check finds the mistake',
text: [
'How many minutes is it to the next noon or midnight? Each reply of this program is right, and yet there is a mistake in it: `wait <= HALF_DAY`.',
'`check` asks about all inputs at once. There always are outputs, but not only one: at noon itself both no wait and a wait of 720 minutes will ' +
'do. It names an input that shows it, and the button beside it runs that one.',
],
example: 'wait',
change: {from: 'wait < HALF_DAY', to: 'wait <= HALF_DAY'},
tab: 'check',
seen: ['program.cf:5:25: choose 1: two outputs for t = -720: 0 and 720'],
},
{
title: 'Fix it',
text: [
'A wait has to be shorter than half a day: `wait < HALF_DAY`. Write it so, or press the button.',
'Then `check` says that there always are outputs, and that they are the only ones. Nothing is sampled: it holds for each input.',
],
example: 'wait',
change: {from: 'wait < HALF_DAY', to: 'wait <= HALF_DAY'},
tab: 'check',
seen: ['program.cf:5:25: choose 1: two outputs for t = -720: 0 and 720'],
offer: {
label: 'Fix it',
from: 'wait <= HALF_DAY',
to: 'wait < HALF_DAY',
seen: ['program.cf:5:25: choose 1: outputs always', 'program.cf:5:25: choose 1: outputs unique'],
},
},
{
title: 'Given',
text: [
'Here are the sum and the difference again. `check` finds that there are no outputs for 0 and 1. Perhaps that is no mistake, because nobody will ' +
'ask for such numbers.',
'Then say so: what stands behind `given` is a condition on the inputs. `check` asks about inputs with this condition alone. For any others the ' +
'program still says that there is no solution.',
],
example: 'pair',
tab: 'check',
seen: ['program.cf:4:3: choose 1: no outputs for sum = 0, difference = 1'],
offer: {
label: 'Say so',
from: ' where x',
to: '\n  given 2 divides sum + difference\n  where x',
seen: ['program.cf:4:3: choose 1: outputs always', 'program.cf:4:3: choose 1: outputs unique'],
},
},
{
title: 'Take it home',
text: [
'A program goes on without this page. Save it with its lines, and the command beside it runs it in a shell. Or save its target: that holds no ' +
'`choose`, and `comfusy exec` only computes. The library answers from Python and from C.',
'That is the end of the tour. Change the program, or take another one from the menu of examples.',
],
example: 'clock',
tab: 'home',
seen: [],
},
];

class Guide {
#at = 0;
#onStep;
#onOffer;

constructor(onStep, onOffer) {
this.#onStep = onStep;
this.#onOffer = onOffer;
byId('open-tour').addEventListener('click', () => this.#show(0));
byId('tour-back').addEventListener('click', () => this.#show(this.#at - 1));
byId('tour-next').addEventListener('click', () => this.#next());
byId('tour-close').addEventListener('click', () => this.close());
}

get isOpen() { return !byId('tour').hidden; }

close() {
byId('tour').hidden = true;
byId('open-tour').focus();
}

#next() {
if (this.#at + 1 < tour.length) this.#show(this.#at + 1);
else this.close();
}

#show(at) {
this.#at = at;
const step = tour[at];
byId('tour').hidden = false;
byId('tour-title').textContent = step.title;
byId('tour-count').textContent = `step ${at + 1} of ${tour.length}`;
byId('tour-text').replaceChildren(...step.text.map(text => element('p', '', ...nodesOf(text))));
byId('tour-offers').replaceChildren(...this.#offers(step));
byId('tour-back').disabled = at === 0;
byId('tour-next').textContent = at + 1 < tour.length ? 'Next' : 'Done';
byId('tour-title').focus();
this.#onStep(step);
}

#offers({offer}) {
if (!offer) return [];
const made = button(offer.label, () => { made.disabled = true; this.#onOffer(offer); });
made.id = 'tour-offer';
return [made];
}
}

const places = {
'bad byte': 'The language has no such sign. There is no `/`: write `div(a, 2)`. There is no `%`: write `mod(a, 2)`.',
'number past limit': 'The largest number is 170141183460469231731687303715884105727.',
'syntax': 'No program goes on like this: the marked word stands in the wrong place, or something before it is missing.',
'unknown name': 'Nothing has this name here. Is it misspelled, or bound elsewhere?',
'duplicate name': 'Two things would have one name here.',
'wrong count': 'There are more or fewer values here than names or parameters for them.',
'type mismatch': 'This value has another type than what is needed here: a number, a truth value and a set are three things.',
'not constant': 'Here stands a number that is known before the program runs: digits, a `const`, and sums, differences and products of these.',
'constant below 1': 'Only a constant of 1 or more divides.',
'constant past limit': 'The largest number is 170141183460469231731687303715884105727, also on the way to a constant.',
'calls later function': 'A function calls those that stand above it. Put the one that is called first.',
'not linear': 'A relation has no product of two unknown numbers, and no set written out but `{}`. If there are few values for one of the numbers, ' +
'write a case for each. Where an input is the factor, `run` answers all the same.',
};

const wholes = [
[/(?:^|: )no main$/, 'A program begins at a function that is named `main`.'],
[/text too long/, 'A program has at most 1,048,576 bytes. A target or steps, read or written, have at most 67,108,864; of language 2 1,048,576 are read.'],
[/Cases \d/, 'The relation has too many cases: `||` adds them up, `&&` multiplies, and `!=` counts 2. Say with ranges what is left.'],
[/Search \d/, 'Too many numbers would be tried. If a sum lies between two bounds, give it a name of its own with `==`.'],
[/Sets \d/, 'At most six sets fit in one relation. Two `choose` one after the other share the work.'],
[/(Rows|Columns) \d/, 'The relation is too large to be solved at once. Several `choose` one after the other share the work.'],
[/coefficient past 128 bits/, 'Factors are multiplied on the way to the answer, and the product is past the largest number. Use smaller units, or ' +
'take the large number apart first.'],
[/(?:^|: )Weight \d/, 'The program is too large once its calls are written out. Call once, and give the result a name with `let`.'],
[/(?:^|: )Depth \d/, 'Parentheses, calls or branches stand too deep in one another.'],
[/rejected at case 0 step 0/, 'This is said of the block as a whole: its steps may be right, but its code or its cases are not theirs.'],
[/rejected at case/, 'Steps and cases count from 1. This step may not be taken where it stands.'],
[/no memory/, 'The page ran out of memory, or the program asks for what is not built yet, such as `minimise`.'],
[/input too long/, 'In language 2 at most 16,777,216 bytes of input are read. A program that begins with `comfusy 3` takes any number.'],
];

const missing = 'The program ends where something else should come. Perhaps a parenthesis, an `else` or the body of a function is missing.';
const placed = new RegExp(`^(?:(?:steps )?line \\d+ column \\d+|${sourceName.replace('.', '\\.')}:\\d+:\\d+): ([a-z 1]+)(?::.*)?$`, 'm');

function helpOf(what, isAtEnd) {
const told = placed.exec(what)?.[1];
if (told === 'syntax' && isAtEnd) return missing;
return places[told] ?? wholes.find(([pattern]) => pattern.test(what))?.[1] ?? '';
}

const statuses = {
0: 'answered', 2: 'no such command', 3: 'a file cannot be read', 4: 'the input cannot be read', 5: 'the output cannot be written',
6: 'refused for its text', 7: 'refused for its names and types', 8: 'refused as not linear', 9: 'refused as too large', 10: 'refused as too large',
11: 'the input is too long', 12: 'out of memory', 13: 'the steps are rejected', 14: 'some answers are no', 15: 'some answers are undecided',
};

function nameOfStatus(status) {
return status === 0 ? statuses[0] : `${statuses[status] ?? 'ended'} (status ${status})`;
}

function helpOfFault(fault) {
return fault === 'stack' ? 'The stack of this browser is too small for this call. The native program has 8 MiB.' : `The call was cut short: ${fault}`;
}

function nothingOf({reads}, {status}) {
if (status === undefined) return 'There is no answer.';
if (status === 13) return 'The steps are rejected. Why is told below them.';
if (status !== 0) return 'The program is refused, so there is nothing to show. What is wrong is told below the program.';
return reads === 'lines' ? 'There are no input lines yet.' : 'There is nothing to show: the program has no choose.';
}

const mostReplies = 2000;
const bad = /^(no solution|overflow|bad input|line too long|choose |\{"error": ")/;

function reply(text, className) {
const item = document.createElement('li');
item.textContent = text === '' ? ' ' : text;
item.className = className;
return item;
}

const rowsOf = text => text.replace(/\n$/, '').split('\n');

class Lines {
#text = byId('lines');
#replies = byId('replies');

constructor(onEdit) {
this.#text.addEventListener('input', () => { this.#fit(); onEdit(); });
}

get text() { return this.#text.value; }

set text(text) {
this.#text.value = text;
this.#fit();
}

expect(inputs) {
byId('inputs').textContent = (inputs ?? []).map(({name, type}) => `${name}: ${type}`).join(', ');
}

show(out) {
const replies = out === '' ? [] : rowsOf(out), count = this.text === '' ? 0 : rowsOf(this.text).length;
const items = replies.slice(0, mostReplies).map((text, i) => reply(text, i >= count ? 'dim' : bad.test(text) ? 'bad' : ''));
if (replies.length > mostReplies) items.push(reply(`and ${replies.length - mostReplies} more`, 'dim'));
this.#replies.replaceChildren(...items);
}

#fit() {
this.#text.rows = Math.min(this.text.split('\n').length, mostReplies) + 1;
}
}

const parts = ['source', 'lines', 'steps'];

function base64Of(bytes) {
const text = btoa(Array.from(bytes, byte => String.fromCharCode(byte)).join(''));
return text.replace(/\+/g, '-').replace(/\//g, '_').replace(/=+$/, '');
}

function bytesOf(base64) {
return Uint8Array.from(atob(base64.replace(/-/g, '+').replace(/_/g, '/')), character => character.charCodeAt(0));
}

async function through(stream, bytes) {
return new Uint8Array(await new Response(new Blob([bytes]).stream().pipeThrough(stream)).arrayBuffer());
}

async function packed(state) {
const text = JSON.stringify(parts.map(part => state[part]));
return base64Of(await through(new CompressionStream('deflate-raw'), new TextEncoder().encode(text)));
}

async function unpacked(base64) {
const bytes = await through(new DecompressionStream('deflate-raw'), bytesOf(base64));
const values = JSON.parse(new TextDecoder().decode(bytes));
return Object.fromEntries(parts.map((part, i) => [part, String(values[i] ?? '')]));
}

async function hashOf(state) {
const said = new URLSearchParams({tab: state.tab});
if (state.example) {
said.set('example', state.example);
} else if (typeof CompressionStream === 'function') {
said.set('packed', await packed(state));
} else {
for (const part of parts) if (state[part]) said.set(part, state[part]);
}
return said.toString();
}

async function stateOf(hash) {
const said = new URLSearchParams(hash.replace(/^#/, '')), state = {tab: said.get('tab') ?? '', example: said.get('example') ?? ''};
if (said.has('packed')) return {...state, ...await unpacked(said.get('packed'))};
if (said.has('source')) for (const part of parts) state[part] = said.get(part) ?? '';
return state;
}

class Menu {
#menu = byId('examples');

constructor(onChoose) {
const groups = new Map();
this.#menu.append(new Option('your own', ''));
for (const {name, group, title} of examples) {
if (!groups.has(group)) {
groups.set(group, Object.assign(document.createElement('optgroup'), {label: group}));
this.#menu.append(groups.get(group));
}
groups.get(group).append(new Option(title, name));
}
this.#menu.addEventListener('change', () => { if (this.name) onChoose(this.name); });
}

get name() { return this.#menu.value; }

set name(name) { this.#menu.value = name; }
}

function exampleOf(name) {
return examples.find(example => example.name === name) ?? examples[0];
}

const space = 'http://www.w3.org/2000/svg';

function svg(name, attributes, ...children) {
const made = document.createElementNS(space, name);
for (const [key, value] of Object.entries(attributes)) made.setAttribute(key, value);
made.append(...children);
return made;
}

function stretches(kinds) {
const found = [];
kinds.forEach((kind, i) => {
if (found.at(-1)?.kind === kind) found.at(-1).count++;
else found.push({kind, from: i, count: 1});
});
return found;
}

function row(kinds, {left, top, wide, high}) {
return stretches(kinds).map(({kind, from, count}) => svg('rect', {class: `cell ${kind}`, x: left + from * wide, y: top, width: count * wide, height: high}));
}

function numbersOf(reply) {
const parts = reply.split(' ');
return parts.every(part => /^-?\d+$/.test(part)) ? parts.map(Number) : [];
}

const shown = number => Math.abs(number) < 1e7 ? String(number) : number.toExponential(1);

function values(replies, {left, top, wide, high}) {
const rows = replies.map(numbersOf), all = rows.flat();
if (all.length === 0) return [];
const least = Math.min(...all), most = Math.max(...all), span = most - least || 1;
const y = value => top + high - 4 - (value - least) / span * (high - 8);
const count = Math.min(Math.max(...rows.map(row => row.length)), 4);
const paths = Array.from({length: count}, (_, series) => {
const dots = rows.flatMap((row, i) => series < row.length ? [`M${(left + (i + 0.5) * wide).toFixed(1)} ${y(row[series]).toFixed(1)}h0`] : []);
return svg('path', {class: `series series-${series}`, d: dots.join('')});
});
const labels = least === most ? [[least, y(least)]] : [[most, y(most) + 4], [least, y(least)]];
return [...paths, ...labels.map(([value, at]) => svg('text', {x: left - 6, y: at + 4, 'text-anchor': 'end'}, shown(value)))];
}

function axis(name, ends, {left, top, width}) {
const [from, to] = ends;
return [
svg('text', {x: left, y: top}, from),
svg('text', {x: left + width / 2, y: top, 'text-anchor': 'middle', class: 'name'}, name),
svg('text', {x: left + width, y: top, 'text-anchor': 'end'}, to),
];
}

function strip({names, ends, kinds, replies}) {
const width = 560, box = {left: 70, top: 112, wide: width / kinds.length, high: 22};
const drawn = svg('svg', {viewBox: '0 0 640 156'},
...values(replies, {...box, top: 0, high: 106}),
...row(kinds, box),
...axis(names[0], ends, {left: box.left, top: box.top + box.high + 16, width}));
return {drawn, box: {...box, columns: kinds.length, rows: 1}};
}

function grid({names, ends, kinds, size}) {
const width = 300, box = {left: 70, top: 6, wide: width / size, high: width / size};
const rows = Array.from({length: size}, (_, i) => row(kinds.slice(i * size, (i + 1) * size), {...box, top: box.top + (size - 1 - i) * box.high}));
const side = (text, y, className = '') => svg('text', {x: box.left - 6, y, 'text-anchor': 'end', class: className}, text);
const drawn = svg('svg', {viewBox: '0 0 380 330'},
...rows.flat(),
...axis(names[0], ends, {left: box.left, top: box.top + width + 16, width}),
side(ends[1], box.top + 12), side(names[1], box.top + width / 2, 'name'), side(ends[0], box.top + width));
return {drawn, box: {...box, columns: size, rows: size}};
}

const mostNumbers = {1: 600, 2: 61};
const usual = {1: [-30n, 90n], 2: [-10n, 10n]};
const near = 1000n;
const kindNames = {solution: 'outputs', none: 'no solution', overflow: 'overflow', other: 'refused'};

function kindOfReply(reply) {
if (reply.startsWith('no solution')) return 'none';
if (reply === 'overflow') return 'overflow';
return /^(choose |bad input)/.test(reply) ? 'other' : 'solution';
}

function spread(from, to, step) {
const found = [];
for (let number = from; number <= to; number += step) found.push(number);
return found;
}

function rangeOf(count, lines) {
const [from, to] = usual[count];
if (count > 1) return [from, to];
const all = lines.split('\n').map(numberOf).filter(number => number !== null && number >= -near && number <= near);
return [all.reduce((least, number) => number < least ? number : least, from), all.reduce((most, number) => number > most ? number : most, to)];
}

function numberOf(text) {
return /^\s*-?\d{1,39}\s*$/.test(text) ? BigInt(text) : null;
}

function field(label, onEdit) {
const input = document.createElement('input'), made = document.createElement('label');
Object.assign(input, {type: 'text', inputMode: 'numeric', size: 8, className: 'code'});
input.addEventListener('input', onEdit);
made.append(`${label} `, input);
made.className = 'inline';
return {made, input};
}

class Plot {
#figure = byId('plot');
#head = document.createElement('span');
#fields;
#drawing = document.createElement('div');
#told = document.createElement('output');
#legend = document.createElement('span');
#inputs = [];
#numbers = [];
#step = 1n;
#isFresh = true;
#replies = [];
#box;
#mark;
#at = null;
#onPick;

constructor(onRange, onPick) {
this.#onPick = onPick;
this.#fields = [field('from', onRange), field('to', onRange)];
const bar = document.createElement('figcaption');
bar.className = 'bar';
bar.append(this.#head, ...this.#fields.map(({made}) => made), this.#legend);
this.#drawing.className = 'drawing';
this.#told.className = 'code';
this.#figure.append(bar, this.#drawing, this.#told);
}

hide() {
this.#figure.hidden = true;
}

stop() {
this.#drawing.replaceChildren();
this.#legend.replaceChildren();
this.#told.textContent = 'The plot was stopped: it took too long. A smaller range may do.';
}

reset() {
this.#isFresh = true;
}

lines(inputs, given) {
const isPlotted = inputs?.length >= 1 && inputs.length <= 2 && inputs.every(({type}) => type === 'int');
this.#figure.hidden = !isPlotted;
if (!isPlotted) return null;
if (this.#isFresh || inputs.length !== this.#inputs.length) this.#setRange(rangeOf(inputs.length, given));
this.#inputs = inputs;
this.#head.textContent = `Replies for ${inputs.map(({name}) => name).join(' and ')}`;
const [from, to] = this.#fields.map(({input}) => numberOf(input.value));
const isRange = from !== null && to !== null && from <= to;
this.#fields.forEach(({input}) => input.setAttribute('aria-invalid', !isRange));
if (!isRange) {
this.#told.textContent = 'These have to be whole numbers, the first at most the second.';
return null;
}
this.#step = (to - from) / BigInt(mostNumbers[inputs.length]) + 1n;
this.#numbers = spread(from, to, this.#step);
return this.#cells().map(cell => this.#lineOf(cell)).join('\n') + '\n';
}

show(out) {
this.#replies = out.trimEnd().split('\n');
const kinds = this.#replies.map(kindOfReply), names = this.#inputs.map(({name}) => name);
const ends = [this.#numbers[0], this.#numbers.at(-1)].map(String);
const {drawn, box} = names.length === 1 ? strip({names, ends, kinds, replies: this.#replies}) : grid({names, ends, kinds, size: this.#numbers.length});
this.#box = box;
this.#mark = svg('rect', {class: 'mark', width: box.wide, height: box.high, visibility: 'hidden'});
drawn.append(this.#mark);
this.#makeLive(drawn, kinds);
this.#drawing.replaceChildren(drawn);
this.#drawing.className = names.length === 1 ? 'drawing strip' : 'drawing grid';
this.#showLegend(kinds);
this.#point(null);
}

#setRange(range) {
this.#fields.forEach(({input}, i) => { input.value = range[i]; });
this.#isFresh = false;
}

#cells() {
const size = this.#numbers.length, rows = this.#inputs.length === 1 ? 1 : size;
return Array.from({length: rows * size}, (_, i) => ({column: i % size, row: Math.floor(i / size)}));
}

#lineOf({column, row}) {
return this.#inputs.length === 1 ? `${this.#numbers[column]}` : `${this.#numbers[column]} ${this.#numbers[row]}`;
}

#makeLive(drawn, kinds) {
const solved = kinds.filter(kind => kind === 'solution').length;
drawn.setAttribute('role', 'img');
drawn.setAttribute('tabindex', '0');
drawn.setAttribute('aria-label', `${solved} of ${kinds.length} inputs have outputs; the arrow keys tell each reply`);
drawn.addEventListener('pointermove', event => this.#point(this.#cellUnder(drawn, event)));
drawn.addEventListener('pointerleave', () => this.#point(null));
drawn.addEventListener('click', event => this.#pick(this.#cellUnder(drawn, event)));
drawn.addEventListener('keydown', event => this.#press(event));
}

#cellUnder(drawn, event) {
const place = new DOMPoint(event.clientX, event.clientY).matrixTransform(drawn.getScreenCTM().inverse());
const {left, top, wide, high, columns, rows} = this.#box;
const column = Math.floor((place.x - left) / wide), row = rows === 1 ? 0 : rows - 1 - Math.floor((place.y - top) / high);
return column >= 0 && column < columns && row >= 0 && row < rows ? {column, row} : null;
}

#point(cell) {
this.#at = cell;
this.#mark.setAttribute('visibility', cell ? 'visible' : 'hidden');
if (!cell) {
this.#told.textContent = 'Point at a cell to read its reply; press it to add it to the input lines.';
return;
}
const {left, top, wide, high, columns, rows} = this.#box, {column, row} = cell;
this.#mark.setAttribute('x', left + column * wide);
this.#mark.setAttribute('y', top + (rows - 1 - row) * high);
const values = this.#inputs.map(({name}, i) => `${name} = ${this.#numbers[i === 0 ? column : row]}`);
this.#told.textContent = `${values.join(', ')}: ${this.#replies[row * columns + column]}`;
}

#pick(cell) {
if (cell) this.#onPick(this.#lineOf(cell));
}

#press(event) {
const step = {ArrowRight: [1, 0], ArrowLeft: [-1, 0], ArrowUp: [0, 1], ArrowDown: [0, -1]}[event.key];
if (event.key === 'Enter') this.#pick(this.#at);
if (!step) return;
event.preventDefault();
const {columns, rows} = this.#box, {column, row} = this.#at ?? {column: -step[0], row: -step[1]};
const within = (at, count) => Math.max(0, Math.min(at, count - 1));
this.#point({column: within(column + step[0], columns), row: within(row + step[1], rows)});
}

#showLegend(kinds) {
const parts = Object.entries(kindNames).map(([kind, name]) => [kind, name, kinds.filter(it => it === kind).length]).filter(([, , count]) => count > 0);
this.#legend.replaceChildren(...parts.map(([kind, name, count]) => {
const part = document.createElement('span'), swatch = document.createElement('i');
swatch.className = `swatch ${kind}`;
part.className = 'legend';
part.append(swatch, `${count} ${name}`);
return part;
}), this.#step > 1n ? ` one of every ${this.#step} numbers` : '');
}
}
const encoder = new TextEncoder(), decoder = new TextDecoder();

class Program {
#newWorker;
#module = null;
#worker;
#number = 0;
#answer = null;
#onUnloaded;

constructor({first, early = [], newWorker}, onUnloaded) {
this.#newWorker = newWorker;
this.#onUnloaded = onUnloaded;
this.#listen(first);
for (const data of early) queueMicrotask(() => this.#hear(data));
}

get isLoaded() { return this.#module !== null; }

get isBusy() { return this.#answer !== null; }

another() {
const other = new Program({first: this.#newWorker(), newWorker: this.#newWorker}, this.#onUnloaded);
other.#give(this.#module);
return other;
}

call({words, files, input}) {
this.stop();
const bytes = Object.fromEntries(Object.entries(files).map(([name, text]) => [name, encoder.encode(text)]));
return new Promise(resolve => {
this.#answer = resolve;
this.#worker.postMessage({number: ++this.#number, words, files: bytes, input: encoder.encode(input)});
});
}

stop() {
if (!this.isBusy) return;
if (this.isLoaded) {
this.#worker.terminate();
this.#listen(this.#newWorker());
this.#give(this.#module);
}
this.#end({isStopped: true});
}

#give(module) {
this.#module = module;
this.#worker.postMessage({module});
}

#listen(worker) {
this.#worker = worker;
worker.onmessage = ({data}) => { if (worker === this.#worker) this.#hear(data); };
worker.onerror = event => {
if (worker === this.#worker) this.#end({fault: event.message ?? 'the worker failed', out: '', err: ''});
};
}

#hear(data) {
if (data.module) this.#module = data.module;
else if (data.unloaded) this.#onUnloaded(data.unloaded);
else if (data.number === this.#number) this.#end({...data, out: decoder.decode(data.out), err: decoder.decode(data.err)});
}

#end(answer) {
const resolve = this.#answer;
this.#answer = null;
resolve?.(answer);
}
}

const files = [
{
name: sourceName,
tells: 'the program as it stands here',
command: `comfusy run ${sourceName} < program.in`,
text: ({source}) => source,
},
{
name: 'program.in',
tells: 'the input lines of the `run` tab',
command: '',
text: ({lines}) => lines,
},
{
name: 'program.target',
tells: 'what it is compiled to: no `choose` is left, and nothing is solved again',
command: 'comfusy exec program.target < program.in',
asks: 'compile',
},
{
name: 'program.steps',
tells: 'how each `choose` was solved, to be checked by whoever doubts it',
command: `comfusy verify ${sourceName} program.steps`,
asks: 'prove',
},
{
name: 'program.py',
tells: 'Python that answers the lines, over the library and its package: `pip install ./python` in the repository',
command: 'python3 program.py',
text: pythonOf,
},
{
name: 'program.c',
tells: 'C that holds the target and answers its input, over the library',
command: 'gcc -o program program.c `pkg-config --cflags --libs comfusy` && ./program < program.in',
asks: 'compile',
text: cOf,
},
];

function pythonOf() {
return `"""Answers each line of program.in by ${sourceName}."""
from pathlib import Path

import comfusy

program = comfusy.compile(Path("${sourceName}").read_text())
lines = Path("program.in").read_text().splitlines()
for line, reply in zip(lines, program.run_all(lines)):
    print(line, "->", reply if isinstance(reply, tuple) else repr(reply))
`;
}

function cOf({target}) {
const literal = target.trimEnd().split('\n').map(line => `  "${line}\\n"`).join('\n');
return `/* Answers each line of its input, of 64 KiB at most, by a target of Comfusy. */
#include <comfusy.h>
#include <stdio.h>

static const char target[] =
${literal};

#define BYTES(text) {(const uint8_t *)(text), sizeof(text) - 1}

int main(void) {
  static uint8_t input[1 << 16], out[1 << 22], err[1 << 10];
  const comfusy_bytes words[] = {BYTES("exec"), BYTES("target")};
  const comfusy_file files[] = {{BYTES("target"), BYTES(target)}};
  size_t size = fread(input, 1, sizeof input, stdin), out_size = 0, err_size = 0;
  uint32_t status = comfusy(words, 2, files, 1, input, size, out, sizeof out, &out_size, err, sizeof err, &err_size);
  if (status == COMFUSY_DONE) fwrite(out, 1, out_size, stdout);
  return (int)status;
}
`;
}

const untilFreed = 60000;

function save(name, text) {
const link = element('a', ''), place = URL.createObjectURL(new Blob([text], {type: 'text/plain'}));
Object.assign(link, {href: place, download: name});
link.click();
setTimeout(() => URL.revokeObjectURL(place), untilFreed);
}

class Saving {
#texts;
#answerTo;

constructor(texts, answerTo, isOneFile) {
this.#texts = texts;
this.#answerTo = answerTo;
byId('files').append(...files.map(file => this.#row(file)), this.#pageRow(isOneFile));
}

#row(file) {
const made = button(file.name, () => this.#make(file));
made.className = 'code';
const told = element('p', '', ...nodesOf(file.tells));
return element('li', '', made, element('div', '', told, ...file.command ? [element('code', 'command', file.command)] : []));
}

#pageRow(isOneFile) {
const told = element('p', '', 'this page in one file, which needs neither a server nor a network');
const link = element(isOneFile ? 'span' : 'a', 'code button', 'comfusy.html');
if (isOneFile) told.append('; it is the one that you have open');
else Object.assign(link, {href: 'single.html', download: 'comfusy.html'});
return element('li', '', link, element('div', '', told));
}

async #make(file) {
const texts = this.#texts(), answer = file.asks ? await this.#answerTo(file.asks) : {status: 0, out: ''};
if (answer.status === 0) save(file.name, file.text ? file.text({...texts, target: answer.out}) : answer.out);
byId('saved').textContent = answer.status === 0 ? `${file.name} is made.` : `${file.name} cannot be made: ${file.asks} refuses the program.`;
}
}

const untilKept = 400, longest = 30000;

async function linkOf(state) {
return `${location.href.replace(/#.*$/, '')}#${await hashOf(state)}`;
}

async function copy() {
byId('link').select();
try {
await navigator.clipboard.writeText(byId('link').value);
byId('copied').textContent = 'copied';
} catch {
byId('copied').textContent = 'it is selected: copy it with the keys of your system';
}
}

class Sharing {
#state;
#timer;

constructor(state) {
this.#state = state;
byId('share').addEventListener('click', () => this.#turn());
byId('copy').addEventListener('click', copy);
}

keep() {
clearTimeout(this.#timer);
this.#timer = setTimeout(async () => {
const link = await linkOf(this.#state());
if (link.length <= longest) history.replaceState(null, '', link);
if (!byId('shared').hidden) byId('link').value = link;
}, untilKept);
}

async #turn() {
const isShown = byId('shared').hidden;
byId('shared').hidden = !isShown;
byId('share').setAttribute('aria-expanded', isShown);
byId('copied').textContent = '';
if (!isShown) return;
byId('link').value = await linkOf(this.#state());
byId('link').select();
}
}

function showStatus(text, className, time = '') {
byId('status').textContent = text;
byId('status').className = className;
byId('time').textContent = time;
byId('stop').hidden = true;
byId('panel').classList.remove('stale');
}

function timeOf(milliseconds) {
return milliseconds < 10 ? `${milliseconds.toFixed(1)} ms` : `${Math.round(milliseconds)} ms`;
}

function showWorking(isLoaded) {
showStatus(isLoaded ? 'working' : 'loading the program', '');
byId('stop').hidden = false;
byId('panel').classList.add('stale');
}

function showUnloaded() {
showStatus('the program cannot be loaded', 'bad');
}

function showEnd({isStopped, fault, status, milliseconds}) {
if (isStopped) showStatus('stopped', 'bad');
else if (fault) showStatus('no answer', 'bad');
else showStatus(nameOfStatus(status), status === 0 ? 'good' : 'bad', timeOf(milliseconds));
}

class Tabs {
#list = byId('tabs');
#onSelect;
selected = commands[0].name;

constructor(onSelect) {
this.#onSelect = onSelect;
this.#list.append(...commands.map(command => this.#tab(command)));
this.#list.addEventListener('keydown', event => this.#press(event));
this.show(this.selected);
}

show(name) {
this.selected = name;
for (const tab of this.#list.children) {
const isSelected = tab.dataset.command === name;
tab.setAttribute('aria-selected', isSelected);
tab.tabIndex = isSelected ? 0 : -1;
}
byId('panel').setAttribute('aria-labelledby', `tab-${name}`);
}

#tab({name, label = name}) {
const tab = document.createElement('button');
Object.assign(tab, {type: 'button', role: 'tab', id: `tab-${name}`, textContent: label});
tab.dataset.command = name;
tab.setAttribute('role', 'tab');
tab.setAttribute('aria-controls', 'panel');
tab.addEventListener('click', () => this.#onSelect(name));
return tab;
}

#press(event) {
const tabs = [...this.#list.children], at = tabs.findIndex(tab => tab.dataset.command === this.selected);
const next = {ArrowRight: at + 1, ArrowLeft: at - 1, Home: 0, End: tabs.length - 1}[event.key];
if (next === undefined) return;
event.preventDefault();
const tab = tabs[(next + tabs.length) % tabs.length];
tab.focus();
tab.click();
}
}

const mostLines = 5000;

function classOf(line) {
if (/: (outputs always|outputs unique|covers all numbers|verified)$/.test(line)) return 'good';
return /undecided|nothing (bounds|uses) |no number reaches | never holds$|a line may try /.test(line) ? 'dim' : 'bad';
}

function leadingLine(line, go) {
const made = button(line, go);
made.className = `line ${classOf(line)}`;
made.title = 'Go there';
return made;
}

function colouredLine(line) {
return element('div', '', ...pieces(line).map(({text, kind}) => kind ? element('span', kind, text) : text));
}

function sampleOf(line, inputs) {
const sample = /: (?:no outputs|two outputs) for (.*?)(?:: .*)?$/.exec(line)?.[1];
if (!sample || !inputs?.length) return null;
const values = new Map([...sample.matchAll(/(\w+) = (\{[^}]*\}|[^,]+)/g)].map(([, name, value]) => [name, value]));
return inputs.every(({name}) => values.has(name)) ? inputs.map(({name}) => values.get(name)).join(' ') : null;
}

function tryButton(sample, onTry) {
const made = button(`run ${sample}`, () => onTry(sample));
made.className = 'try';
made.title = 'Add this input line, and run the program';
return made;
}

function showWritten(out, {inputs, placeOf, go, onTry}) {
const lines = out === '' ? [] : out.replace(/\n$/, '').split('\n');
const rows = lines.slice(0, mostLines).map(line => {
const place = placeOf(line), sample = sampleOf(line, inputs);
return element('div', '', place ? leadingLine(line, () => go(place)) : colouredLine(line), sample ? tryButton(sample, onTry) : '');
});
if (lines.length > mostLines) rows.push(element('div', 'dim', `and ${lines.length - mostLines} more lines`));
byId('written').replaceChildren(...rows);
}

const {begun} = globalThis;
const untilAsked = 100, untilWorking = 300, longestPlot = 3000;
const source = new Editor(byId('source'), () => edited());
const steps = new Editor(byId('steps'), () => { hasOwnSteps = true; edited(); });
const lines = new Lines(() => edited());
const faults = new Faults({source, steps}, renew);
const menu = new Menu(name => { loadExample(name); sharing.keep(); ask(); });
const tabs = new Tabs(choose);
const plot = new Plot(askSoon, tryLine);
const guide = new Guide(startStep, makeOffer);
const sharing = new Sharing(state);
new Saving(() => ({source: source.text, lines: lines.text}), answerToSaving, begun.isOneFile);
const program = new Program(begun, tellUnloaded);
let maker = null, isUnloaded = false, hasOwnSteps = false, seen = [], latest = 0, askTimer;


function edited() {
menu.name = '';
byId('notice').hidden = true;
sharing.keep();
askSoon();
}

function askSoon() {
clearTimeout(askTimer);
askTimer = setTimeout(ask, untilAsked);
}

function flags() {
return [...byId('flags').querySelectorAll('input:checked')].map(box => box.value);
}

function callOf({name, asks = name, reads}) {
const files = {[sourceName]: source.text};
if (reads === 'steps') files.steps = steps.text;
return {words: [asks, ...Object.keys(files), ...flags()], files, input: reads === 'lines' ? lines.text : ''};
}

async function ask() {
clearTimeout(askTimer);
if (isUnloaded) return;
const number = ++latest, command = commandOf(tabs.selected), timer = setTimeout(() => showWorking(program.isLoaded), untilWorking);
const answer = await answerTo(command, number);
clearTimeout(timer);
if (number !== latest) return;
show(command, answer);
if (command.reads === 'lines' && answer.status === 0) await askPlot(number);
}

async function answerTo(command, number) {
if (command.reads === 'steps' && !hasOwnSteps) {
const proved = await program.call(callOf(commandOf('prove')));
if (number !== latest || proved.status !== 0) return proved;
steps.text = proved.out;
}
return program.call(callOf(command));
}

async function answerToSaving(name) {
if (!program.isLoaded) return {};
maker ??= program.another();
return maker.call({words: [name, sourceName], files: {[sourceName]: source.text}, input: ''});
}

async function askPlot(number) {
const input = plot.lines(inputsOfMain(source.text), lines.text);
if (input === null) return;
const timer = setTimeout(() => { if (number === latest) program.stop(); }, longestPlot);
const answer = await program.call({words: ['run', sourceName], files: {[sourceName]: source.text}, input});
clearTimeout(timer);
if (number !== latest) return;
if (answer.status === 0) plot.show(answer.out);
else plot.stop();
document.body.dataset.plotted = number;
}


function show(command, answer) {
const isCut = answer.isStopped || answer.fault;
showEnd(answer);
showFault(answer);
showOut(command, answer.out ?? '');
for (const id of ['replies', 'written']) byId(id).dataset.nothing = nothingOf(command, answer);
if (isCut || answer.status !== 0 || command.reads !== 'lines') plot.hide();
markSeen();
document.body.dataset.first ??= Math.round(performance.now());
document.body.dataset.answered = latest;
}

function showFault({fault, err = '', status}) {
const told = fault ? helpOfFault(fault) : err.trimEnd(), [what] = told.split('\n');
faults.show(told, helpOf(what, isAtEnd(what)), status >= 6 && status <= 10 && !isOfEdition3(source.text));
}

function isAtEnd(told) {
const place = faults.placeOf(told);
return place?.file === 'source' && place.index >= source.text.trimEnd().length;
}

function showOut(command, out) {
const inputs = inputsOfMain(source.text);
lines.expect(inputs);
if (command.shows === 'replies') lines.show(out);
else if (command.shows === 'written') showWritten(out, {inputs, placeOf: line => faults.placeOf(line), go: place => faults.goTo(place), onTry: tryLine});
}

function markSeen() {
if (!guide.isOpen) return;
for (const row of document.querySelectorAll('#replies > *, #written > *')) row.classList.toggle('seen', seen.includes(row.firstChild?.textContent));
}


function flagBox({flag, tells}) {
const box = document.createElement('input'), label = document.createElement('label');
Object.assign(box, {type: 'checkbox', value: flag});
box.addEventListener('change', ask);
label.append(box, ` ${flag}`);
label.className = 'inline code';
label.title = tells;
return label;
}

function showTab(name) {
const command = commandOf(name);
tabs.show(command.name);
byId('question').replaceChildren(...nodesOf(command.question));
byId('flags').replaceChildren(...command.flags.map(flagBox));
byId('lines-part').hidden = command.shows !== 'replies';
byId('written').hidden = command.shows !== 'written';
byId('home-part').hidden = command.shows !== 'files';
byId('saved').textContent = '';
byId('steps-part').hidden = command.reads !== 'steps';
}

function choose(name) {
showTab(name);
sharing.keep();
ask();
}

function state() {
return {tab: tabs.selected, example: menu.name, source: source.text, lines: lines.text, steps: hasOwnSteps ? steps.text : ''};
}

function loadTexts(texts) {
source.text = texts.source;
lines.text = texts.lines ?? '';
steps.text = texts.steps ?? '';
hasOwnSteps = steps.text !== '';
byId('notice').hidden = true;
plot.reset();
}

function loadExample(name) {
const example = exampleOf(name);
loadTexts(example);
menu.name = example.name;
}

function tryLine(line) {
lines.text = lines.text.replace(/\n*$/, lines.text ? '\n' : '') + `${line}\n`;
edited();
choose('run');
}

function startStep(step) {
seen = step.seen;
loadExample(step.example);
if (step.change) change(step.change);
choose(step.tab);
}

function makeOffer(offer) {
seen = offer.seen;
change(offer);
ask();
}

function renew() {
source.text = `comfusy 3\n${source.text}`;
edited();
}

function change({from, to}) {
source.text = source.text.replace(from, to);
edited();
}


async function loadLink() {
try {
const held = await stateOf(location.hash);
if (held.source === undefined) {
loadExample(held.example);
} else {
loadTexts(held);
menu.name = '';
}
showTab(held.tab);
} catch {
loadExample('');
showTab('');
byId('notice').textContent = 'This link cannot be read; perhaps it was cut short. Here is an example instead.';
byId('notice').hidden = false;
}
}

function press(event) {
if (event.key === 'Enter' && (event.ctrlKey || event.metaKey)) ask();
else if (event.key === 'F8' && faults.place) faults.goTo(faults.place);
else if (event.key === 'Escape' && program.isBusy) program.stop();
else if (event.key === 'Escape' && guide.isOpen) guide.close();
else return;
event.preventDefault();
}

function listen() {
byId('fill-steps').addEventListener('click', () => { hasOwnSteps = false; ask(); });
byId('stop').addEventListener('click', () => program.stop());
document.addEventListener('keydown', press);
window.addEventListener('hashchange', async () => { await loadLink(); ask(); });
}

function tellUnloaded(why) {
isUnloaded = true;
program.stop();
latest++;
showUnloaded();
faults.show(why, 'A web server has to hand out the files beside this one; the page in one file opens from a disk.', false);
}

async function start() {
byId('unstarted').remove();
listen();
byId('made-of').textContent = `It is made of the proved program whose checksum begins with ${programSum.slice(0, 12)}.`;
await loadLink();
ask();
}

start();
