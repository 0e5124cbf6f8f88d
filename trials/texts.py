"""The texts that hurt, each with what is wanted of it."""

from __future__ import annotations

from collections.abc import Iterator, Sequence
from dataclasses import dataclass
from typing import Any

from harness.steps import verified_lines
from worked import SPLIT

TEXT = 1 << 20
WRITTEN = 1 << 26
LINE = 1 << 16
INPUT = 1 << 24
MAX = 2**127 - 1
HEADER = b"comfusy 3\n"
SYNTAX = "line {} column {}: syntax\n"
ILL_TYPED = "target not well typed\n"
PAST = "choose 1: coefficient past 128 bits\n"

Wanted = dict[str, Any]


@dataclass(frozen=True)
class Trial:
    """A text that hurts, and what is wanted: the status, and what is written: `said` to the standard error, to the output `wrote`, a piece and how often.

    What `prove` writes is not told, but verified.
    """

    name: str
    words: tuple[str, ...]
    text: bytes
    input: bytes = b""
    status: int = 0
    said: str = ""
    wrote: tuple[bytes, int] = (b"", 1)
    steps: bytes = b""


def filled(front: bytes, piece: bytes, behind: bytes = b"", size: int = TEXT) -> bytes:
    """A text of at most so many bytes: as many pieces as fit between the front and what stands behind."""
    return front + piece * ((size - len(front) - len(behind)) // len(piece)) + behind


def counted(count: int, piece: bytes, between: bytes = b", ", first: int = 1) -> bytes:
    """So many pieces, in which %d stands for a number that counts up."""
    return between.join(piece.replace(b"%d", b"%d" % i) for i in range(first, first + count))


def ints(letter: bytes, count: int) -> bytes:
    """So many parameters or outputs x1, x2 ..., each a number."""
    return counted(count, letter + b"%d: int")


def several(piece: bytes, count: int) -> bytes:
    """A tuple of so many equal parts."""
    return b"(" + b", ".join([piece] * count) + b")"


def grouped(parts: Sequence[bytes], sign: bytes = b" && ") -> bytes:
    """The parts as a tree of halves, so that it stays low: their conjunction, or what another sign makes of them."""
    if len(parts) == 1:
        return parts[0]
    half = len(parts) // 2
    return b"(" + grouped(parts[:half], sign) + b")" + sign + b"(" + grouped(parts[half:], sign) + b")"


def program(params: bytes, results: bytes, body: bytes) -> bytes:
    return b"def main(" + params + b"): " + results + b" = " + body


def source(name: str, text: bytes, **wanted: Any) -> Trial:
    return Trial(name, ("run", "file"), text, **wanted)


def target(name: str, text: bytes, **wanted: Any) -> Trial:
    return Trial(name, ("exec", "file"), text, **wanted)


def answers(input: bytes, piece: bytes, count: int = 1) -> Wanted:
    """What is wanted where the input is answered by so many times this piece."""
    return {"input": input, "wrote": (piece, count)}


def refused(line: int, column: int) -> Wanted:
    return {"status": 6, "said": SYNTAX.format(line, column)}


def refused_at(text: bytes, piece: bytes, status: int, what: str) -> Wanted:
    """What is wanted where a text of one line is refused at the last place at which the piece stands."""
    return {"status": status, "said": f"line 1 column {text.rindex(piece) + 1}: {what}\n"}


def bytes_and_tokens() -> Iterator[Trial]:
    """Texts that are refused before a tree stands, and white space."""
    yield source("opening parentheses", b"(" * TEXT, **refused(1, 1))
    yield target("opening parentheses, exec", b"(" * TEXT, **refused(1, 1))
    yield source("bytes 255", b"\xff" * TEXT, status=6, said="line 1 column 1: bad byte\n")
    yield source("bytes 0", bytes(TEXT), status=6, said="line 1 column 1: bad byte\n")
    yield source("!", b"!" * TEXT, **refused(1, 1))
    yield source("one comment", b"#" * TEXT, **refused(1, TEXT + 1))
    yield source("a program behind a comment", filled(b"#", b"c", b"\ndef main(): int = 7"), **answers(b"\n", b"7\n"))
    yield source("line feeds", b"\n" * TEXT, **refused(TEXT + 1, 1))
    yield source("a byte too long", b" " * (TEXT + 1), status=6, said="text too long\n")
    yield source("def, 262,144 times", b"def " * (TEXT // 4), **refused(1, 5))
    yield source("a name of the longest", filled(b"def main(", b"a", b": int): int = 7"), **answers(b"1\n", b"7\n"))
    yield source("a literal of zeros", filled(b"def main(): int = ", b"0", b"7"), **answers(b"\n", b"7\n"))
    yield source("a literal of nines", filled(b"def main(): int = ", b"9"), status=6, said="line 1 column 19: number past limit\n")
    text = filled(b"def main(): int = 7", b" ", b"$")
    yield source("a bad byte at the end", text, **refused_at(text, b"$", 6, "bad byte"))


def depths() -> Iterator[Trial]:
    """Bodies and targets that go deep."""
    front = b"def main(): int = "
    yield source("parentheses in a body", filled(front, b"("), **refused(1, 218))
    yield source("! in a body", filled(front, b"!"), **refused(1, 218))
    yield source("- in a body", filled(front, b"-"), **refused(1, 218))
    yield source("let in the value of a let", filled(front, b"let x = "), **refused(1, 1611))
    yield source("let in the body of a let", filled(front, b"let x = 1 in "), **refused(1, 2606))
    yield source("if in the test of an if", filled(front, b"if "), **refused(1, 616))
    yield source("one sum", filled(front + b"1", b" + 1"), **refused(1, 817))
    yield source("199 parentheses", front + b"(" * 199 + b"7" + b")" * 199, **answers(b"\n", b"7\n"))
    front = b"main (): set = "
    yield target("500 nested braces", front + b"{" * 500 + b"}" * 500, status=7, said=ILL_TYPED)
    yield target("501 nested braces", front + b"{" * 501 + b"}" * 501, **refused(1, 516))
    yield target("nested braces", filled(front, b"{"), **refused(1, 516))
    yield target("499 neg", b"main (): int = " + b"neg(" * 499 + b"7" + b")" * 499, **answers(b"\n", b"-7\n"))


def chain(count: int, step: bytes, first: int = 2) -> bytes:
    """Functions from f1 on, in which each is a step from the one before; those from `first` on, if not from f2 on."""
    start = b"def f1(a: int): int = a\n" if first == 2 else b""
    steps = (b"def f%d(a: int): int = %s\n" % (i, step.replace(b"f", b"f%d" % (i - 1))) for i in range(first, count + 1))
    return start + b"".join(steps)


def functions() -> Iterator[Trial]:
    """Many functions, long chains of calls, weights and depths."""
    many = b"".join(b"def f%d():int=0 " % i for i in range(55_000))
    yield source("55,000 functions", many + b"def main(): int = f54999()", **answers(b"\n", b"0\n"))
    yield source("functions of one name", filled(b"", b"def f():int=0 "), status=7, said="line 1 column 15: duplicate name\n")
    last = b"def main(a: int): int = f%d(a)\n"
    yield source("calls 200 deep", chain(199, b"f(a)") + last % 199, **answers(b"7\n", b"7\n"))
    yield source("calls 201 deep", chain(200, b"f(a)") + last % 200, status=10, said="Depth 201\n")
    twice = b"f(a) + f(a)"
    yield source("calls that double 199 times", chain(199, twice) + last % 199, status=10, said="Weight 1572859\n")
    yield source("calls that double up to the weight", chain(18, twice) + last % 18, **answers(b"1\n", b"131072\n"))
    deep = chain(18, twice) + chain(180, b"f(a)", 19)
    yield source("calls that double, and then go deep", deep + last % 180, **answers(b"1\n", b"131072\n"))
    for count in 30, 20_000:
        beside = b"".join(b"def g%d(a:int):int=f18(a)\n" % i for i in range(count))
        text = chain(18, twice) + beside + last % 1
        yield source(f"{count:,} functions of that weight, not called", text, **answers(b"1\n", b"1\n"))
    calls = b",".join([b"g(a)"] * 200_000)
    one = b"def g(a: int): int = a "
    text = one + program(b"a: int", b"int", b"g(" + calls + b")")
    yield source("a call of 200,000 arguments", text, **refused_at(text, b"g(g", 7, "wrong count"))
    yield source("200,000 calls in a set", one + program(b"a: int", b"set", b"{" + calls + b"}"), **answers(b"3\n", b"{3}\n"))


def many_names() -> Iterator[Trial]:
    """Names by the ten thousand, each looked up."""
    many = 32_768
    line = b"1 " * many
    yield source("32,768 parameters", program(ints(b"p", many), b"int", b"p1"), **answers(line, b"1\n"))
    uses = b"{" + b", ".join([b"p1"] * many) + b"}"
    yield source("32,768 uses of the first of 32,768", program(ints(b"p", many), b"set", uses), **answers(line, b"{1}\n"))
    uses = b"{" + counted(many, b"p%d") + b"}"
    yield source("each of 32,768 parameters used", program(ints(b"p", many), b"set", uses), **answers(line, b"{1}\n"))
    yield from wide_forms(50_000)
    yield from scopes()


def wide_forms(many: int) -> Iterator[Trial]:
    """Forms that bind or give very many values."""
    names = counted(many, b"x%d")
    text = program(b"", b"int", b"let (" + names + b") = " + several(b"1", many) + b" in x1")
    yield source("a let of 50,000 names", text, **answers(b"\n", b"1\n"))
    text = program(b"", b"int", b"let (" + names + b", x1) = 1 in 2")
    yield source("a let with a name again behind 50,000", text, **refused_at(text, b"x1)", 7, "duplicate name"))
    text = program(b"", several(b"int", 2 * many), several(b"1", 2 * many))
    yield source("a tuple of 100,000 parts", text, **answers(b"\n", b"1" + b" 1" * (2 * many - 1) + b"\n"))
    text = program(b"", several(b"int", many), b"choose (" + ints(b"x", many) + b") where x1 == x1")
    yield source("a choose of 50,000 outputs", text, status=10, said=f"choose 1: Columns {many + 1}\n")
    pattern = counted(many, b"i%d", b"+")
    text = program(b"a: int", b"int", b"match a with { " + pattern + b" then i1 }")
    yield source("a pattern of 50,000 names", text, status=10, said=f"Depth {many + 6}\n")
    text = program(b"a: int", b"int", b"match a with { " + pattern + b"+i1 then 1 }")
    yield source("a pattern with a name again behind 50,000", text, **refused_at(text, b"i1 then", 7, "duplicate name"))


def scopes() -> Iterator[Trial]:
    """Chooses beneath many parameters: each keeps the variables in scope."""
    for name, many in ("2,000", 2_000), ("20,000", 20_000):
        each = b",".join([b"choose(x:int)where x==p1"] * many)
        text = program(ints(b"p", many), b"set", b"{" + each + b"}")
        yield source(f"{name} chooses beneath {name} parameters", text, **answers(b"1 " * many, b"{1}\n"))


def matches() -> Iterator[Trial]:
    match = b"match a with { %s }"
    arms = counted(5_000, b"%d then %d", b" ; ", 0)
    yield source("a match of 5,000 literal arms", program(b"a: int", b"int", match % arms), status=10, said="Depth 5004\n")
    arms = counted(5_000, b"%d * i then i", b" ; ")
    yield source("a match of 5,000 arms with a variable", program(b"a: int", b"int", match % arms), status=10, said="Depth 5006\n")
    arms = counted(190, b"%d * i then i", b" ; ", 2)
    replies = b"95\nno solution at choose 1\n"
    yield source("a match of 190 arms", program(b"a: int", b"int", match % arms), **answers(b"190\n1\n", replies))


def targets() -> Iterator[Trial]:
    """Long targets, and searches at the limit of their bounds."""
    front = b"main (int): int = solve 1 { "
    yield target("bounds 1024 and 1025", front + b"arm [1024, 1025] { give v1 } }", status=7, said=ILL_TYPED)
    search = front + b"arm [1024, 1024] { need ((v1 + v2) == v0); give v1 } }"
    yield target("bounds 1024 and 1024", search, **answers(b"-1\n2046\n", b"no solution at choose 1\n1023\n"))
    text = filled(front + b"arm [", b"0", b"7] { give v1 } }")
    yield target("a bound of very many digits", text, **answers(b"-1\n", b"0\n"))
    text = filled(front, b"arm [] { need (v0 == 1); give 1 } ", b"arm [] { give 2 } }")
    yield target("arms to the end of the text", text, **answers(b"0\n", b"2\n"))
    text = filled(front + b"arm [] { ", b"let 1; ", b"give v0 } }")
    yield target("lets to the end of the text", text, **answers(b"3\n", b"3\n"))
    text = filled(front + b"arm [1048576] { need false; ", b"need true; ", b"give v0 } }")
    yield target("needs to the end of the text, in a search", text, **answers(b"3\n", b"no solution at choose 1\n"))
    text = filled(front + b"arm [1", b", 1", b"] { give v0 } }")
    yield target("bounds of 1 to the end of the text", text, **answers(b"3\n", b"3\n"))
    text = filled(b"main (): int = (1", b" + 1", b")")
    yield target("one sum, exec", text, **answers(b"\n", b"%d\n" % (text.count(b"+") + 1)))
    yield target("one union of a set", filled(b"main (set): set = (v0", b" union v0", b")"), **answers(b"{1}\n", b"{1}\n"))
    many = 60_000
    text = b"main (): int = card((" + counted(many, b"{%d}", b" union ") + b"))"
    yield target("a union of 60,000 sets of one element", text, **answers(b"\n", b"60000\n"))
    text = b"main (): int = card(fresh({1, 3}, 1000000))"
    yield target("a fresh set of 1,000,000 elements", text, **answers(b"\n", b"1000000\n"))
    text = b"main (): set = fresh({}, %d)" % MAX
    yield target("a fresh set of MAX elements", text, input=b"\n", status=12, said="no memory\n")
    yield target("the last variable of all", b"main (): int = v4294967295", status=7, said=ILL_TYPED)


def inputs() -> Iterator[Trial]:
    """Inputs at the limits of a line and of the whole."""
    number = program(b"a: int", b"int", b"a")
    yield source("16 MiB in one line", number, **answers(b"1" * INPUT, b"line too long\n"))
    yield source("a byte more than 16 MiB in one line", number, input=b"1" * (INPUT + 1), status=11, said="input too long\n")
    yield source("16 MiB of line feeds", program(b"", b"int", b"7"), **answers(b"\n" * INPUT, b"7\n", INPUT))
    yield source("16 MiB of bad lines", number, **answers(b"x\n" * (INPUT // 2), b"bad input\n", INPUT // 2))
    lines = INPUT // (LINE + 1)
    for name, line, reply in (
        ("bytes 0", bytes(LINE), b"bad input\n"),
        ("digits", b"0" * (LINE - 1) + b"7", b"7\n"),
        ("white space", b" " * (LINE - 1) + b"7", b"7\n"),
        ("signs", b"-" * LINE, b"bad input\n"),
        ("braces", b"{" * LINE, b"bad input\n"),
    ):
        yield source(f"lines of 65,536 {name}", number, **answers((line + b"\n") * lines, reply, lines))


def sets() -> Iterator[Trial]:
    """Sets of 10,000 elements, on lines of at most 65,536 bytes."""
    count, lines = 10_000, 100
    rising = counted(count, b"%d", b",")
    falling = b",".join(b"%d" % i for i in range(count, 0, -1))
    mixed = b",".join(b"%d" % (i * 7919 % 10_007) for i in range(1, count + 1))
    size = program(b"s: set", b"int", b"card(s)")
    for name, elements in ("rising", rising), ("falling", falling), ("in no order", mixed):
        yield source(f"sets of 10,000 {name}", size, **answers((b"{" + elements + b"}\n") * lines, b"10000\n", lines))
    line = b"{" + rising + b"}\n"
    yield source("sets of 10,000 that are split", SPLIT, **answers(line * lines, line.replace(b",5001,", b"} {5001,"), lines))
    text = program(b"s: set", b"set", b"choose (f: set) where f inter s == {} && card(f) == card(s)")
    others = b"{0," + counted(count - 1, b"%d", b",", count + 1) + b"}\n"
    yield source("10,000 fresh elements beside sets of 10,000", text, **answers(line * lines, others, lines))
    text = program(b"s: set", b"set", b"s")
    yield source("sets of one element 32,767 times", text, **answers((b"{" + b",".join([b"1"] * 32_767) + b"}\n") * lines, b"{1}\n", lines))
    text = program(b"s: set", b"set", b"{" + b",".join([b"card(s)"] * 100_000) + b"}")
    yield source("card of a set of 10,000, 100,000 times", text, **answers(line, b"{10000}\n"))
    text = b"main (set): int = solve 1 { arm [1048576] { need (v1 == 1048575); give v1 } }"
    yield target("a search of 1,048,576 beside a set of 10,000", text, **answers(line, b"1048575\n"))
    text = program(b"", b"int", b"card({" + counted(120_000, b"%d", b",") + b"})")
    yield source("a set literal of 120,000", text, **answers(b"\n", b"120000\n"))
    relation = b"x union y == s1 union s2 union s3 union s4 && x inter y == {}"
    text = program(counted(4, b"s%d: set"), b"(set, set)", b"choose (x: set, y: set) where " + relation)
    yield source("six sets, 63 regions", text, **answers(b"{1} {2} {3} {1,2,3}\n", b"{1,2,3} {}\n"))


def chooses() -> Iterator[Trial]:
    """Relations near the limits of a choose, and with numbers of 38 digits everywhere."""
    yield from digit_trials()
    choose = b"choose (x: int) where "
    sides = b"a <= 1048576 * x + 1048577 * y && 1048576 * x + 1048577 * y <= b"
    text = program(b"a: int, b: int", b"(int, int)", b"choose (x: int, y: int) where " + sides)
    yield source("a search of 1,048,576 that finds nothing", text, **answers(b"1 0\n", b"no solution at choose 1\n"))
    relation = b" && ".join([b"x != a"] * 198)
    yield source("2^198 cases", program(b"a: int", b"int", choose + relation), status=10, said="choose 1: Cases 18446744073709551615\n")
    yield from case_trials(choose)
    yield from row_trials(choose)
    yield from column_trials()
    yield from equation_trials()


def digit_trials() -> Iterator[Trial]:
    """Numbers of 38 digits in every row: on one side, on both, and in equations."""
    digits = [MAX - i for i in range(12)]
    choose = b"choose (x: int, y: int, z: int) where "
    row = b"%d * x + %d * y + %d * z %s %d * a"
    for name, orders, wanted in (
        ("eight rows of 38 digits", (b"<=", b"<="), answers(b"1\n-1\n2\n", b"0 0 0\n-1 0 0\noverflow\n")),
        ("eight rows of 38 digits, on both sides", (b"<=", b">="), {"status": 10, "said": "choose 1: Search 18446744073709551615\n"}),
    ):
        rows = b" && ".join(row % (*digits[i : i + 3], orders[i % 2], digits[i + 3]) for i in range(8))
        yield source(name, program(b"a: int", b"(int, int, int)", choose + rows), **wanted)
    choose = b"choose (x: int) where "
    text = program(b"a: int", b"int", choose + b"%d * x == %d * a" % (MAX, MAX))
    yield source("one equation of 38 digits", text, **answers(b"1\n%d\n" % MAX, b"1\noverflow\n"))
    rows = b" && ".join(b"%d * x == %d * a" % (d, d) for d in digits)
    yield source("twelve equations of 38 digits", program(b"a: int", b"int", choose + rows), **answers(b"1\n-1\n2\n", b"1\n-1\noverflow\n"))
    rows = b" && ".join(b"%d * x + %d * y == %d * a" % tuple(digits[i : i + 3]) for i in range(8))
    text = program(b"a: int", b"(int, int)", b"choose (x: int, y: int) where " + rows)
    yield source("eight equations of 38 digits", text, status=9, said=PAST)


def case_trials(choose: bytes) -> Iterator[Trial]:
    """1,024 cases, alone, with many rows in each, and in many copies."""
    cases = b"(" + b" && ".join(b"x != %d" % i for i in range(10)) + b")"
    yield source("1,024 cases", program(b"", b"int", choose + cases), **answers(b"\n", b"-1\n"))
    rows = grouped([b"a%d <= x" % i for i in range(1, 101)])
    text = program(ints(b"a", 100), b"int", choose + cases + b" && " + rows)
    yield source("1,024 cases of 100 rows", text, **answers(b"-1 " * 100, b"-1\n"))
    first = b"def f1(a: int): int = " + choose + cases + b"\n"
    for calls, last in (128, 8), (8_192, 14):
        text = first + chain(last, b"f(a) + f(a)", 2).split(b"\n", 1)[1] + b"def main(a: int): int = f%d(a)" % last
        yield source(f"{calls:,} calls of 1,024 cases", text, **answers(b"0\n", b"-%d\n" % calls))


def row_trials(choose: bytes) -> Iterator[Trial]:
    """Rows up to the limit."""
    bounds = [b"a%d <= x" % i for i in range(1, 500)] + [b"x <= b1", b"x <= b2"]
    text = program(ints(b"a", 499) + b", " + ints(b"b", 2), b"int", choose + grouped(bounds))
    yield source("998 pairs of bounds", text, **answers(b"1 " * 501, b"1\n"))
    pairs = [b"a%d <= 2 * x && 2 * x <= b%d" % (i, i) for i in range(1, 31)]
    text = program(ints(b"a", 30) + b", " + ints(b"b", 30), b"int", choose + grouped(pairs))
    yield source("900 pairs of bounds with coefficients", text, **answers(b"2 " * 60, b"1\n"))


def column_trials() -> Iterator[Trial]:
    """Outputs up to the limit of columns."""
    count = 498
    rows = [b"a <= x1", b"x%d <= a" % count] + [b"x%d <= x%d" % (i, i + 1) for i in range(1, count)]
    choose = b"choose (" + ints(b"x", count) + b") where "
    text = program(b"a: int", several(b"int", count), choose + grouped(rows))
    yield source("498 outputs in a chain", text, **answers(b"5\n", b" ".join([b"5"] * count) + b"\n"))


def equation_trials() -> Iterator[Trial]:
    """Equations with many terms, alone and in 1,024 cases."""
    count = 60
    sums = (b" + ".join(b"%d * x%d" % (1 + (i == j), j) for j in range(1, count + 1)) for i in range(1, count + 1))
    rows = [b"%s == a%d" % (terms, i) for i, terms in enumerate(sums, 1)]
    yield equations("60 equations that fill their rows", count, rows, b"61 ", b"1")
    cases = [b"z != %d" % i for i in range(10)]
    for count, others, name in (300, [], "300 sums of 300 inputs"), (40, cases, "1,024 cases of 40 sums of 40 inputs"):
        inputs = grouped([b"a%d" % i for i in range(1, count + 1)], b" + ")
        rows = [b"x%d == %s" % (i, inputs) for i in range(1, count + 1)]
        yield equations(name, count, rows + others, b"1 ", b"%d" % count, b"z" if others else b"")


def equations(name: str, count: int, rows: Sequence[bytes], value: bytes, reply: bytes, last: bytes = b"") -> Trial:
    """So many outputs under these rows, on a line of equal values; a last output is -1."""
    outputs = ints(b"x", count) + (b", %s: int" % last if last else b"")
    text = program(ints(b"a", count), several(b"int", count + len(last)), b"choose (" + outputs + b") where " + grouped(rows))
    return source(name, text, **answers(value * count, b" ".join([reply] * count) + (b" -1\n" if last else b"\n")))


def late_trials() -> Iterator[Trial]:
    """Coefficients that are inputs: each line is eliminated anew."""
    params, choose = b"a: int, b: int", b"choose (x: int) where "
    yield source("a product on each of 100,000 lines", program(params, b"int", choose + b"a * x == b"), **answers(b"3 12\n" * 100_000, b"4\n", 100_000))
    cases = b" && ".join(b"a * x != %d" % i for i in range(10))
    yield source("1,024 cases on each of 100 lines", program(b"a: int", b"int", choose + cases), **answers(b"1\n" * 100, b"-1\n", 100))
    sides = b"choose (x: int, y: int) where a <= p * x + q * y && p * x + q * y <= b"
    text = program(b"p: int, q: int, " + params, b"(int, int)", sides)
    line, reply = b"1048576 1048577 1 0\n", b"no solution at choose 1\n"
    yield source("a search of 1,048,576 on each of 20 lines", text, **answers(line * 20, reply, 20))
    line, reply = b"%d %d 0 9\n" % (MAX, MAX - 1), b"choose 1: Search %d\n" % (2**64 - 1)
    yield source("a search past the limit on each of 100,000 lines", text, **answers(line * 100_000, reply, 100_000))
    relation = b"x union y == s1 union s2 union s3 union s4 && x inter y == {} && a * card(x) >= card(y)"
    text = program(b"a: int, " + counted(4, b"s%d: set"), b"(set, set)", b"choose (x: set, y: set) where " + relation)
    yield source("63 regions on each of 1,000 lines", text, **answers(b"2 {1} {2} {3} {1,2,3}\n" * 1000, b"{1,2,3} {}\n", 1000))
    count = 300
    sum_ = grouped([b"p%d * x%d" % (i, i) for i in range(1, count + 1)], b" + ")
    text = program(ints(b"p", count) + b", a: int", several(b"int", count), b"choose (" + ints(b"x", count) + b") where " + sum_ + b" == a")
    yield source("300 products in one equation", text, **answers(b"2 " * count + b"7\n", b"no solution at choose 1\n"))


def questions() -> Iterator[Trial]:
    """What `check` is asked near the limits of its questions."""
    numbers = b"choose (x: int, y: int) where a <= %d * x + %d * y && %d * x + %d * y <= b"
    for tuples in 1000, 1001, 1_048_576:
        text = program(b"a: int, b: int", b"(int, int)", numbers % ((tuples, tuples + 1) * 2))
        existence = "no outputs for a = 1, b = 0" if tuples <= 1000 else f"existence undecided: Search {tuples}"
        yield asked(f"a search of {tuples:,}, check", text, existence, f"two outputs for a = -{tuples}, b = 0: -1 0 and 0 0")
    relation = b"choose (x: set, y: set, z: set) where x subset s && y subset t && z subset u"
    text = program(b"s: set, t: set, u: set", b"(set, set, set)", relation)
    yield asked("six sets, check", text, "outputs always", "uniqueness undecided: Sets 9")
    text = program(b"a: int", b"int", b"choose (x: int) where %d * x == a" % MAX)
    yield asked("38 digits, check", text, f"no outputs for a = -{MAX - 1}", "outputs unique")
    for count, existence, uniqueness in (
        (3, "outputs always", "two outputs: -2 and -1"),
        (4, "existence undecided: Cases 26873856", "two outputs: -2 and -1"),
        (10, "existence undecided: Search 1024", "uniqueness undecided: Cases 2097152"),
    ):
        text = program(b"", b"int", b"choose (x: int) where " + b" && ".join(b"x != %d" % i for i in range(count)))
        yield asked(f"{2**count:,} cases, check", text, existence, uniqueness)
    arms = counted(150, b"%d then %d", b" ; ", 0)
    text = program(b"a: int", b"int", b"match a with { " + arms + b" }")
    wrote = b"match 1: coverage undecided: Cases 18446744073709551615\n"
    yield Trial("a match of 150 literal arms, check", ("check", "file"), text, wrote=(wrote, 1))
    arms = counted(190, b"190 * i + %d then i", b" ; ", 0)
    text = program(b"a: int", b"int", b"match a with { " + arms + b" }")
    wrote = b"match 1: coverage undecided: Rows 144400\n" + counted(190, b"choose %d: outputs unique\n", b"", 2)
    yield Trial("a match of 190 residues, check", ("check", "file"), text, wrote=(wrote, 1))


def asked(name: str, text: bytes, existence: str, uniqueness: str) -> Trial:
    wrote = f"choose 1: {existence}\nchoose 1: {uniqueness}\n"
    return Trial(name, ("check", "file"), text, wrote=(wrote.encode(), 1))


def steps(name: str, text: bytes, blocks: bytes, **wanted: Any) -> Trial:
    return Trial(name, ("verify", "file", "steps"), text, steps=blocks, **wanted)


def refused_steps(line: int, column: int) -> Wanted:
    return {"status": 6, "said": "steps " + SYNTAX.format(line, column)}


def rejected(number: int, case: int, step: int, why: str) -> Wanted:
    return {"status": 13, "said": f"choose {number}: rejected at case {case} step {step}: {why}\n"}


ROUNDING = program(b"a: int, b: int", b"int", b"choose (x: int) where a <= 2 * x && 2 * x <= b")
FRONT, BEHIND = b"choose 1 { case { ", b" } } main (int, int): int = 0"


def steps_files() -> Iterator[Trial]:
    """Steps files that are refused or rejected."""
    yield steps("opening parentheses, verify", ROUNDING, b"(" * TEXT, **refused_steps(1, 1))
    yield steps("choose, 149,796 times", ROUNDING, b"choose " * (TEXT // 7), **refused_steps(1, 8))
    yield steps("a byte too long, verify", ROUNDING, b" " * (TEXT + 1), status=6, said="steps text too long\n")
    yield steps("one comment, verify", ROUNDING, b"#" * TEXT, **rejected(1, 0, 0, "wrong blocks"))
    yield steps("braces behind choose 1", ROUNDING, filled(b"choose 1 ", b"{"), **refused_steps(1, 11))
    yield steps("braces behind case", ROUNDING, filled(b"choose 1 { case ", b"{"), **refused_steps(1, 18))
    front = b"choose 1 { case { } } main (int, int): set = "
    yield steps("500 nested braces, verify", ROUNDING, front + b"{" * 500 + b"}" * 500, **rejected(1, 1, 1, "not finished"))
    yield steps("nested braces, verify", ROUNDING, filled(front, b"{"), **refused_steps(1, 546))
    yield steps("a column of very many digits", ROUNDING, filled(FRONT + b"drop ", b"0", b"3;" + BEHIND), **rejected(1, 1, 1, "pair without coefficient 1"))
    blocks = filled(b"", b"choose 7{}main():int=0 ")
    yield steps("45,590 blocks too many", program(b"", b"int", b"7"), blocks, **rejected(7, 0, 0, "wrong blocks"))
    yield steps("174,755 cases", ROUNDING, filled(b"choose 1 { ", b"case{}", b" } main (int, int): int = 0"), **rejected(1, 0, 0, "wrong blocks"))
    yield from many_steps()


def many_steps() -> Iterator[Trial]:
    """Very many steps, each of which applies."""
    cleans = filled(FRONT, b"clean;", BEHIND)
    yield steps("clean, 174,754 times", ROUNDING, cleans, **rejected(1, 1, cleans.count(b";") + 1, "not finished"))
    text = program(b"a: int", b"(int, int)", b"choose (x: int, y: int) where x + y == a")
    behind = b" } } main (int): (int, int) = (0, 0)"
    for name, factors, count, why in (
        ("40,000 mixes", b"1 0 0 1", 40_000, rejected(1, 1, 40_001, "not finished")),
        ("mixes whose factors grow", b"2 1 1 1", 20_000, rejected(1, 1, 92, "coefficient past 128 bits")),
    ):
        mixes = b"".join(b"mix %d %d %s;" % (column, column + 1, factors) for column in range(2, 2 + 2 * count, 2))
        yield steps(name, text, FRONT + mixes + behind, **why)
    text = program(b"", b"int", b"choose (x: int) where " + b" && ".join(b"x != %d" % i for i in range(10)))
    each = b"case { clean; drop 1; clean; } "
    yield steps("1,024 cases with another code", text, b"choose 1 { " + each * 1024 + b"} main (): int = 0", **rejected(1, 0, 0, "code differs"))
    text = next(trial.text for trial in equation_trials() if trial.name == "300 sums of 300 inputs")
    yield steps("clean, 1,000 times on 300 sums of 300 inputs", text, FRONT + b"clean;" * 1000 + BEHIND, **rejected(1, 1, 1001, "not finished"))


PROVED = (
    "1,024 cases",
    "1,024 cases of 100 rows",
    "a search of 1,048,576 that finds nothing",
    "six sets, 63 regions",
    "998 pairs of bounds",
    "900 pairs of bounds with coefficients",
    "498 outputs in a chain",
    "60 equations that fill their rows",
    "300 sums of 300 inputs",
    "1,024 cases of 40 sums of 40 inputs",
)


def proofs() -> Iterator[Trial]:
    """What `prove` writes on some of the texts above, and on many chooses."""
    for trial in (*sets(), *chooses()):
        if trial.name in PROVED:
            yield Trial(f"{trial.name}, prove", ("prove", "file"), trial.text)
    each = b"def f%d(a: int): int = choose (x: int) where a <= 2 * x && 2 * x <= a + %d\n"
    text = b"".join(each % (i, i) for i in range(1, 2001)) + b"def main(a: int): int = f1(a)\n"
    yield Trial("2,000 chooses, prove", ("prove", "file"), text)


def verified(trial: Trial, proved: bytes) -> Trial:
    """`verify` on what `prove` wrote in a trial: a line for each block, or that it is too long, which it never is of edition 3."""
    name = trial.name.replace(", prove", ", verify")
    if len(proved) > TEXT and not trial.text.startswith(HEADER):
        return steps(name, trial.text, proved, status=6, said="steps text too long\n")
    return steps(name, trial.text, proved, wrote=(verified_lines(proved), 1))


def of_edition_three() -> Iterator[Trial]:
    """Inputs, targets and steps of edition 3 past the limits of language 2, and at their own."""
    number = HEADER + program(b"a: int", b"int", b"a")
    yield source("64 MiB in one line of edition 3", number, **answers(b"1" * (4 * INPUT), b"line too long\n"))
    yield source("a byte more than 16 MiB of line feeds", HEADER + program(b"", b"int", b"7"), **answers(b"\n" * (INPUT + 1), b"7\n", INPUT + 1))
    yield target("a byte too long of edition 3, exec", HEADER + b" " * (WRITTEN + 1 - len(HEADER)), status=6, said="text too long\n")
    yield target("opening parentheses of edition 3, exec", filled(HEADER, b"(", size=WRITTEN), **refused(2, 1))
    front = HEADER + b"main (int): int = solve 1 { "
    text = filled(front, b"arm [] { need (v0 == 1); give 1 } ", b"arm [] { give 2 } }", WRITTEN)
    yield target("arms to the end of the text of edition 3", text, **answers(b"0\n", b"2\n"))
    rounding = HEADER + ROUNDING
    yield steps("a byte too long of edition 3, verify", rounding, b" " * (WRITTEN + 1), status=6, said="steps text too long\n")
    yield steps("opening parentheses of edition 3, verify", rounding, b"(" * WRITTEN, **refused_steps(1, 1))
    text = filled(b"choose 1 (p = true", b", p = true", b") {} main(): int = 0", WRITTEN)
    yield steps("truth variables to the end of the text", rounding, text, **rejected(1, 0, 0, "wrong blocks"))
    cleans = filled(FRONT, b"clean;", BEHIND, WRITTEN)
    yield steps("clean, 11,184,802 times", rounding, cleans, **rejected(1, 1, cleans.count(b";") + 1, "not finished"))


def trials() -> Iterator[Trial]:
    """All trials; those of edition 3 come last, since they make this script large, and memory is told from its size on."""
    groups = bytes_and_tokens, depths, functions, many_names, matches, targets, inputs, sets, chooses, late_trials, questions, steps_files, proofs
    for group in *groups, of_edition_three:
        yield from group()
