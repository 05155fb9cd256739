"""A model of banks: what the job lines about them must answer.

A bank is some bytes and a list of places: the place of a name is its first
byte and its width. Bytes are counted from 0, the lowest of a number first.
"""

import copy
import re

WIDTHS = (1, 2, 4, 8)
MOST_NAMES = 64       # in any bank
MOST_SLOTS = 32       # in one frame
MOST_NUMBER = 255     # of a name in a put
WORD_BYTES = 8        # words are eight bytes

BAD_BANK = 15


class BadBank(Exception):
    """Refusal 15."""


def word_bytes(word):
    return word.to_bytes(WORD_BYTES, "little")


def check_widths(widths, most):
    """At least one width, not more than most, all of them good."""
    if not 1 <= len(widths) <= most:
        raise BadBank
    for width in widths:
        if width not in WIDTHS:
            raise BadBank


class Bank:
    """What the banks that have bytes of their own are alike in."""

    def __init__(self, places, size):
        self.places = places
        self.bytes = bytearray(size)

    def count(self):
        return len(self.places)

    def place(self, a):
        """First byte and width; a number past the end has no bytes."""
        if a < len(self.places):
            return self.places[a]
        return 0, 0

    def width(self, a):
        return self.place(a)[1]

    def look(self, a):
        start, width = self.place(a)
        return int.from_bytes(self.bytes[start:start + width], "little")

    def put(self, a, word):
        start, width = self.place(a)
        self.bytes[start:start + width] = word_bytes(word)[:width]


class Variables(Bank):
    """Names beside each other, all 0 at first, nothing ever lost."""

    def __init__(self, widths):
        check_widths(widths, MOST_NAMES)
        places = []
        size = 0
        for width in widths:
            places.append((size, width))
            size += width
        super().__init__(places, size)

    def call_loss(self, word):
        pass

    def pause_loss(self, word):
        pass


class Nested(Bank):
    """8 units of 8 bytes; four names for the lowest 1, 2, 4 and 8 bytes
    of each."""

    def __init__(self, word):
        super().__init__([(8 * unit, width)
                          for unit in range(8) for width in WIDTHS], 64)
        self.pause_loss(word)

    def put(self, a, word):
        super().put(a, word)
        start, width = self.place(a)
        if width == 4:                             # clears the upper four
            self.bytes[start + 4:start + 8] = bytes(4)

    def call_loss(self, word):
        self.bytes[:32] = word_bytes(word) * 4     # units 0 to 3

    def pause_loss(self, word):
        self.bytes[:] = word_bytes(word) * 8


class Paired(Bank):
    """16 cells of a byte; names for the cells, then for the aligned
    pairs, fours and halves."""

    def __init__(self, word):
        super().__init__([(start, width) for width in WIDTHS
                          for start in range(0, 16, width)], 16)
        self.pause_loss(word)

    def call_loss(self, word):
        self.bytes[:8] = word_bytes(word)          # cells 0 to 7

    def pause_loss(self, word):
        self.bytes[:] = word_bytes(word) * 2


class Frame:
    """Slots above the names of a copy of the bank below. Slots are as
    variables are: 0 at first, each by itself, never lost."""

    def __init__(self, base, widths):
        check_widths(widths, MOST_SLOTS)
        if base.count() + len(widths) > MOST_NAMES:
            raise BadBank
        self.below = copy.deepcopy(base)
        self.slots = Variables(widths)

    def count(self):
        return self.below.count() + self.slots.count()

    def find(self, a):
        """The bank that has the name, and its number there."""
        if a < self.below.count():
            return self.below, a
        return self.slots, a - self.below.count()

    def width(self, a):
        bank, number = self.find(a)
        return bank.width(number)

    def look(self, a):
        bank, number = self.find(a)
        return bank.look(number)

    def put(self, a, word):
        bank, number = self.find(a)
        bank.put(number, word)

    def call_loss(self, word):
        self.below.call_loss(word)

    def pause_loss(self, word):
        self.below.pause_loss(word)


# Job lines. Where the rules give no answer there is an error.

JOBS = ("bank", "put", "call-loss", "pause-loss")


def number(text, most=2 ** 64 - 1):
    """A number as it is written in a job line."""
    if re.fullmatch("0x[0-9a-fA-F]+", text):
        value = int(text[2:], 16)
    elif re.fullmatch("[0-9]+", text):
        value = int(text)
    else:
        raise ValueError("no number: " + text)
    if value > most:
        raise ValueError("too large: " + text)
    return value


def is_bank(thing):
    return isinstance(thing, (Bank, Frame))


def bank_named(objects, name):
    """KeyError if no bank has the name."""
    if not is_bank(objects[name]):
        raise KeyError(name)
    return objects[name]


def make(objects, kind, words):
    if kind == "variables":
        return Variables([number(word) for word in words])
    if kind in ("nested", "paired") and len(words) == 1:
        word = number(words[0])
        return Nested(word) if kind == "nested" else Paired(word)
    if kind == "frame" and words:
        base = bank_named(objects, words[0])
        if isinstance(base, Frame) and isinstance(base.below, Frame):
            raise ValueError("more than two layers: " + words[0])
        return Frame(base, [number(word) for word in words[1:]])
    raise ValueError("no such bank: " + " ".join([kind] + words))


def define(objects, name, kind, words):
    try:
        bank = make(objects, kind, words)
    except BadBank:
        return ["bank %s: refused %d side 0 place 0 rows 0 0"
                % (name, BAD_BANK)]
    objects[name] = bank
    return ["bank %s: %d names" % (name, bank.count())]


def show_lines(name, bank):
    looks = ["0x%x" % bank.look(a) for a in range(bank.count())]
    return [" ".join(["bank %s:" % name] + looks)]


def answer(objects, words):
    """The answer lines to one of JOBS; objects are those defined so far,
    by name."""
    if words[0] == "bank" and len(words) >= 3:
        return define(objects, words[1], words[2], words[3:])
    if words[0] == "put" and len(words) == 4:
        bank_named(objects, words[1]).put(number(words[2], MOST_NUMBER),
                                          number(words[3]))
        return []
    if words[0] == "call-loss" and len(words) == 3:
        bank_named(objects, words[1]).call_loss(number(words[2]))
        return []
    if words[0] == "pause-loss" and len(words) == 3:
        bank_named(objects, words[1]).pause_loss(number(words[2]))
        return []
    raise ValueError("no such job: " + " ".join(words))
