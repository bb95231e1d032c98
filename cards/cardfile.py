"""Cards and their plain text: a text or a card to its items and back, and in words what is wrong with them.

README.md beside this file has the text's form. The items are a dictionary by the names of the text's lines.
Numbers are kept as their patterns of 64 bits, so that nothing is rounded on the way.
"""

import math
import os
import re
import struct
import sys
from decimal import Decimal, InvalidOperation

# The kinds of a cone word; 5 and 6 are reserved.
KINDS = {0: "zero", 1: "nonnegative", 2: "second-order", 3: "rotated", 4: "semidefinite", 7: "group"}
NUMBERS = {name: kind for kind, name in KINDS.items()}
TOLERANCES = ["eps_acc", "eps_inf", "eps_zero"]

# What a card has room for.
MOST_SIZE = 32
MOST_WORDS = 63

# What the solver takes of the rest.
SOLVER_STEPS = 1_000_000
SOLVER_SWEEPS = 64
SOLVER_GROUPS = 8

# The columns of a progress record as text.
RECORD_COLUMNS = ["step", "tau", "primal", "dual", "gap", "unbounded", "infeasible"]

# What the solver's first words mean.
FAULTS = {
    1: "the file ends before its card does",
    2: "this is not a card of edition 1",
    3: f"n or m is above {MOST_SIZE}",
    4: "the bits that fill the last byte are not zero",
    5: "bytes are left over after the card",
}
REFUSALS = {
    1: "a parameter out of its range (BadParam)",
    2: "a problem too large (TooLarge)",
    3: "a matrix of the wrong shape (InvalidOp)",
    4: "cone words that don't fit (BadCone)",
    5: "a number that is not finite (NotFinite)",
    6: "too little room to work in (WorkShortage)",
}
ENDINGS = {
    "Converged": "x and y pass the tests of a solution, within eps_acc.",
    "ExcessIter": "the steps ran out; x and y are where they stood, and no solution.",
    "Unbounded": "x passes the test of a direction along which c·x falls without end; x is not scaled.",
    "Infeasible": "y passes the test of a reason why no x fits: Aᵀy is nearly 0, b·y is below 0; y is not scaled.",
    "ConeFailure": "a semidefinite block did not come to an end within the sweep limit; x and y are 0.",
}


class Wrong(Exception):
    """What is wrong, in words."""


class Fault(Exception):
    """The number of a card's fault."""


# Numbers: a decimal, or 0x and a pattern of 64 bits. int() and float() alone would take more than these.

DECIMAL = re.compile(r"[+-]?([0-9]+\.?[0-9]*|\.[0-9]+)([eE][+-]?[0-9]+)?")
PATTERN = re.compile(r"0[xX][0-9a-fA-F]{1,16}")
NO_FINITE = re.compile(r"[+-]?(nan|inf|infinity)", re.IGNORECASE)


def pattern_of_float(number):
    return struct.unpack(">Q", struct.pack(">d", number))[0]


def float_of(pattern):
    return struct.unpack(">d", struct.pack(">Q", pattern))[0]


def is_finite(pattern):
    return pattern >> 52 & 0x7FF != 0x7FF


def decimal_of(pattern):
    """The shortest decimal that reads back to the same pattern; nan and inf for what has none."""
    return repr(float_of(pattern)).removesuffix(".0")


def text_of(pattern):
    return decimal_of(pattern) if is_finite(pattern) else f"0x{pattern:016x}"


def pattern_of(word):
    if PATTERN.fullmatch(word):
        return int(word, 16)
    if not DECIMAL.fullmatch(word) and not NO_FINITE.fullmatch(word):
        raise Wrong(f"not a number: {shown(word)}")
    pattern = pattern_of_float(float(word))
    if not is_finite(pattern):
        raise Wrong(f"no finite number: {word}; write its pattern after 0x")
    return pattern


def patterns_of(words):
    return [pattern_of(word) for word in words]


def whole(word, most):
    number = exact(word)
    if not 0 <= number <= most:
        raise Wrong(f"not from 0 to {most}: {word}")
    if number != int(number):
        raise Wrong(f"not a whole number: {word}")
    return int(number)


def exact(word):
    """The value of a word, not rounded."""
    if PATTERN.fullmatch(word):
        return int(word, 16)
    if not DECIMAL.fullmatch(word):
        raise Wrong(f"not a whole number: {shown(word)}")
    try:
        return Decimal(word)
    except InvalidOperation:
        raise Wrong(f"not a whole number: {word}") from None


# Words for messages.


def shown(word):
    return word if word.isprintable() else ascii(word)


def counted(count, thing):
    return f"{count} {thing}" if count == 1 else f"{count} {thing}s"


def there_are(count, thing):
    return f"there {'is' if count == 1 else 'are'} {counted(count, thing)}"


# Cone words: a kind and its size, or any 16 bits after 0x. The size of a block is its places; that of a group is
# the number of following words that belong to it.


def cone_word(words):
    if len(words) == 1 and words[0].lower().startswith("0x"):
        return whole(words[0], 0xFFFF)
    if len(words) != 2 or words[0] not in NUMBERS:
        *blocks, group = NUMBERS
        raise Wrong(f"a word is one of {', '.join(blocks)} and its places, {group} and its words, or 0x and 16 bits")
    return NUMBERS[words[0]] << 13 | whole(words[1], 0x1FFF)


def kind_and_size(word):
    return word >> 13, word & 0x1FFF


def text_of_cone_word(word):
    kind, size = kind_and_size(word)
    return f"{KINDS[kind]} {size}" if kind in KINDS else f"0x{word:04x}"


# The cone list is read item by item, and an item that is a group is read as a list.


def blocks_of(words):
    """The blocks in order: of each its kind, its places, and the numbers of the groups around it, outermost first.

    The groups of a list are numbered from 1. Wrong says which word is the first that can't stand, and why.
    """
    return blocks_between(words, 0, len(words), [])


def blocks_between(words, at, end, groups):
    """The blocks of the list that stands from one place of the words up to another."""
    blocks, inner = [], 0
    while at < end:
        kind, size = kind_and_size(words[at])
        at += 1  # past this word; counted from 1 this is its number
        wrong = wrong_word(kind, size, end - at, len(groups))
        if wrong:
            raise Wrong(f"word {at}: {wrong}")
        if KINDS[kind] == "group":
            inner += 1
            blocks += blocks_between(words, at, at + size, [*groups, inner])
            at += size
        else:
            blocks.append((KINDS[kind], size, groups))
    return blocks


def wrong_word(kind, size, after, deep):
    """What is wrong with a word that stands so many groups deep, with so many words of its list after it; or None."""
    name = KINDS.get(kind)
    if name is None:
        return f"kind {kind} is reserved"
    if name == "semidefinite" and not is_triangular(size):
        return f"a semidefinite block of {counted(size, 'place')}, which is not d(d+1)/2 for any order d"
    if name == "group" and deep == SOLVER_GROUPS:
        return f"a group {deep + 1} deep; {SOLVER_GROUPS} is the most"
    if name == "group" and size > after:
        left = f"where {counted(after, 'word')} {'follows' if after == 1 else 'follow'}"
        return f"a group of {counted(size, 'word')} runs past the list that it stands in, {left}"
    return None


def is_triangular(places):
    order = (math.isqrt(8 * places + 1) - 1) // 2
    return order * (order + 1) // 2 == places


# The numbers of each row of A: all, or of a packed one those up to the diagonal.


def row_lengths(packed, n, m):
    return list(range(1, n + 1)) if packed else [n] * m


def by_columns(packed, rows, n):
    """A as it is stored. The rows of a packed one up to the diagonal are its upper columns."""
    if packed:
        return [number for row in rows for number in row]
    return [row[column] for column in range(n) for row in rows]


def by_rows(packed, numbers, n, m):
    if packed:
        starts = [i * (i + 1) // 2 for i in range(n + 1)]
        return [numbers[start:end] for start, end in zip(starts, starts[1:])]
    return [numbers[row::m] for row in range(m)]


# Text to items.


def yes_or_no(word):
    if word not in ("no", "yes"):
        raise Wrong("packed is yes or no")
    return int(word == "yes")


SINGLE = {
    "packed": yes_or_no,
    "n": lambda word: whole(word, MOST_SIZE),
    "m": lambda word: whole(word, MOST_SIZE),
    "max_iter": lambda word: whole(word, (1 << 20) - 1),
    "sweep_limit": lambda word: whole(word, (1 << 7) - 1),
    "eps_acc": pattern_of,
    "eps_inf": pattern_of,
    "eps_zero": pattern_of,
}
LISTS = ["c", "b"]
REPEATED = {"word": cone_word, "row": patterns_of}
MANDATORY = ["n", "m", "c", "b"]
DEFAULTS = {
    "packed": 0,
    "max_iter": 100_000,
    "sweep_limit": 64,
    "eps_acc": pattern_of("1e-6"),
    "eps_inf": pattern_of("1e-6"),
    "eps_zero": pattern_of("1e-12"),
}


def items_of_text(text):
    items = {name: [] for name in REPEATED}
    lines = {name: [] for name in REPEATED}
    for line, words in lines_of_words(text):
        try:
            take_line(items, words)
        except Wrong as wrong:
            raise Wrong(f"line {line}: {wrong}") from None
        note_line(lines, words[0], line)
    for name in MANDATORY:
        if name not in items:
            raise Wrong(f"{name} is missing")
    items = {**DEFAULTS, **items}
    check_lengths(items, lines)
    return items


def lines_of_words(text):
    """The lines that say something, by their numbers. A line ends where an editor ends it, and nowhere else."""
    for number, line in enumerate(re.split("\r\n|\r|\n", text), 1):
        words = re.findall("[^ \t\f]+", line.split("#")[0])
        if words:
            yield number, words


def take_line(items, words):
    name, rest = words[0], words[1:]
    if name in REPEATED:
        items[name].append(REPEATED[name](rest))
        return
    if name not in SINGLE and name not in LISTS:
        raise Wrong(f"there is no item {shown(name)}")
    if name in items:
        raise Wrong(f"{name} stands twice")
    if name in LISTS:
        items[name] = patterns_of(rest)
        return
    if len(rest) != 1:
        raise Wrong(f"{name} is {'yes or no' if name == 'packed' else 'one number'}")
    items[name] = SINGLE[name](rest[0])


def note_line(lines, name, line):
    if name in REPEATED:
        lines[name].append(line)
    else:
        lines[name] = line


def check_lengths(items, lines):
    packed, n, m = items["packed"], items["n"], items["m"]
    lengths = row_lengths(packed, n, m)
    why = "; the rows of a packed A end at the diagonal" if packed else ""
    check_not_above(MOST_WORDS, "word", lines["word"], f"a card holds {MOST_WORDS}")
    check_length("c", items["c"], n, lines["c"])
    for row, length, line in zip(items["row"], lengths, lines["row"]):
        check_length("the row", row, length, line, why)
    check_not_above(len(lengths), "row", lines["row"], f"not {len(lengths)}")
    check_not_below(len(lengths), len(items["row"]))
    check_length("b", items["b"], m, lines["b"])


def check_length(what, numbers, length, line, why=""):
    if len(numbers) != length:
        raise Wrong(f"line {line}: {what} has {counted(len(numbers), 'number')}, and not {length}{why}")


def check_not_above(most, name, lines, wanted):
    if len(lines) > most:
        raise Wrong(f"line {lines[most]}: a {name} too many: {there_are(len(lines), name)}, and {wanted}")


def check_not_below(least, rows):
    if rows < least:
        raise Wrong(f"{there_are(rows, 'row')}, and not {least}")


# Items to text.


def text_of_items(items):
    lines = [f"packed {'yes' if items['packed'] else 'no'}", f"n {items['n']}", f"m {items['m']}"]
    lines += [f"word {text_of_cone_word(word)}" for word in items["word"]]
    lines += [f"max_iter {items['max_iter']}", f"sweep_limit {items['sweep_limit']}"]
    lines += [f"{name} {text_of(items[name])}" for name in TOLERANCES]
    lines.append(line_of("c", items["c"]))
    lines += [line_of("row", row) for row in items["row"]]
    lines.append(line_of("b", items["b"]))
    return "".join(line + "\n" for line in lines)


def line_of(name, numbers):
    return " ".join([name, *map(text_of, numbers)])


# Items to card.


def card_of_items(items):
    packed, n, m, words = items["packed"], items["n"], items["m"], items["word"]
    fields = [(4, 1), (1, packed), (6, n), (6, m), (6, len(words))]
    fields += [(16, word) for word in words]
    fields += [(20, items["max_iter"]), (7, items["sweep_limit"])]
    numbers = [items[name] for name in TOLERANCES] + items["c"]
    numbers += by_columns(packed, items["row"], n) + items["b"]
    fields += [(64, number) for number in numbers]
    bits = "".join(f"{value:0{width}b}" for width, value in fields)
    bits += "0" * (-len(bits) % 8)
    return int(bits, 2).to_bytes(len(bits) // 8, "big")


# Card to items.


class Bits:
    def __init__(self, card):
        self.bits = "".join(f"{byte:08b}" for byte in card)
        self.at = 0

    def take(self, width):
        field = self.bits[self.at : self.at + width]
        if len(field) < width:
            raise Fault(1)
        self.at += width
        return int(field, 2)

    def take_all(self, width, count):
        return [self.take(width) for _ in range(count)]

    def take_end(self):
        padding = self.bits[self.at : self.at + -self.at % 8]
        judged("1" not in padding, 4)
        judged(self.at + len(padding) == len(self.bits), 5)


def judged(holds, fault):
    if not holds:
        raise Fault(fault)


def items_of_card(card):
    bits = Bits(card)
    judged(bits.take(4) == 1, 2)
    packed = bits.take(1)
    n = bits.take(6)
    judged(n <= MOST_SIZE, 3)
    m = bits.take(6)
    judged(m <= MOST_SIZE, 3)
    items = {"packed": packed, "n": n, "m": m}
    items["word"] = bits.take_all(16, bits.take(6))
    items["max_iter"] = bits.take(20)
    items["sweep_limit"] = bits.take(7)
    for name in TOLERANCES:
        items[name] = bits.take(64)
    items["c"] = bits.take_all(64, n)
    stored = bits.take_all(64, sum(row_lengths(packed, n, m)))
    items["row"] = by_rows(packed, stored, n, m)
    items["b"] = bits.take_all(64, m)
    bits.take_end()
    return items


# What the solver would refuse: its tests in their order, each with its reason or none. No card is too large for it (2), and it is lent enough work (6).


def refusal(items):
    """The number of the first refusal that holds and its reason, or None."""
    for number, test in [(1, bad_param), (3, invalid_op), (4, bad_cone), (5, not_finite)]:
        reason = test(items)
        if reason:
            return number, reason
    return None


def bad_param(items):
    for name in TOLERANCES:
        if not is_finite(items[name]):
            return f"{name} is {decimal_of(items[name])}"
        if float_of(items[name]) < 0:
            return f"{name} is {text_of(items[name])}, below 0"
    if items["max_iter"] > SOLVER_STEPS:
        return f"max_iter is {items['max_iter']}, above {SOLVER_STEPS}"
    if not 1 <= items["sweep_limit"] <= SOLVER_SWEEPS:
        return f"sweep_limit is {items['sweep_limit']}, and not from 1 to {SOLVER_SWEEPS}"
    return None


def invalid_op(items):
    if items["packed"] and items["m"] != items["n"]:
        return f"A is packed, which asks for m = n, and m is {items['m']} and n is {items['n']}"
    return None


def bad_cone(items):
    try:
        blocks = blocks_of(items["word"])
    except Wrong as wrong:
        return str(wrong)
    places = sum(size for _, size, _ in blocks)
    if places != items["m"]:
        return f"the blocks have {counted(places, 'place')} in all, and m is {items['m']}"
    return None


def not_finite(items):
    rows = [(f"row {number}", row) for number, row in enumerate(items["row"], 1)]
    for where, numbers in [("c", items["c"]), *rows, ("b", items["b"])]:
        for place, number in enumerate(numbers, 1):
            if not is_finite(number):
                return f"number {place} of {where} is {decimal_of(number)}"
    return None


# A file's bytes: a card, or the plain text of one.


def is_text(data):
    """Whether this is text: no control bytes but white space. A card of edition 1 begins with 0x10 to 0x1f."""
    return data != b"" and not re.search(rb"[\x00-\x08\x0b\x0e-\x1f\x7f]", data)


def text_of_bytes(data):
    if data and not is_text(data):
        raise Wrong("this is not plain text: it has control bytes")
    try:
        return data.decode("utf-8-sig")
    except UnicodeDecodeError as wrong:
        line = len(re.findall(b"\r\n|\r|\n", wrong.object[: wrong.start])) + 1
        raise Wrong(f"line {line}: this is not UTF-8; save the text as UTF-8") from None


def card_of_text(data):
    return card_of_items(items_of_text(text_of_bytes(data)))


# What the commands share.


def read_file(name, most=-1):
    """The bytes of a file, or the first of them; - is standard input."""
    try:
        with open(0 if name == "-" else name, "rb") as file:
            return file.read(most)
    except OSError as wrong:
        raise Wrong(f"{'standard input' if name == '-' else name}: {wrong.strerror}") from None


def write_out(data):
    """Writes to standard output. A reader that went away has had enough."""
    try:
        while data:
            data = data[os.write(1, data) :]
    except BrokenPipeError:
        pass
    except OSError as wrong:
        raise Wrong(f"standard output: {wrong.strerror}") from None


def say(words):
    """Writes a line to standard error, if anyone reads it."""
    try:
        if sys.stderr is not None:
            print(words, file=sys.stderr, flush=True)
    except OSError:
        pass


def said(wrong):
    """An exception in words."""
    if not isinstance(wrong, OSError):
        return str(wrong)
    return wrong.strerror if wrong.filename is None else f"{wrong.filename}: {wrong.strerror}"
