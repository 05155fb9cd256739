"""Writes read.jobs: forms to read, good and bad, group by group.

Each job states the answer it is meant to have, counted from how the job
was built; the model has to agree or nothing is written.

    python3 jobs.py
"""

import random
import model

FIELDS = {kind: letters for kind, (_, letters) in model.KINDS.items()}
NUMBER = {name: kind for kind, (name, _) in model.KINDS.items()}
LIMIT = {"n": 63, "o": 11, "k": 255, "t": 2}   # t in a form of 3 blocks

lines = []
session = model.Session()
forms = 0


# Writing bytes.

def num(value):
    """A number, shortest writing."""
    out = []
    while value > 0x7F:
        out.append(value & 0x7F | 0x80)
        value >>= 7
    return bytes(out + [value])


def nums(*values):
    return b"".join(num(value) for value in values)


def row(name, *fields):
    return nums(NUMBER[name], *fields)


def block(*rows):
    return num(len(rows)) + b"".join(rows)


def form(parameters, *blocks):
    return nums(len(blocks), len(parameters), *parameters) + b"".join(blocks)


# Writing jobs.

def group(text):
    lines.append("# " + text)


def job(name, data, room, meant):
    """One form line from its bytes."""
    words = ["form", name]
    if room is not None:
        words += ["rows", str(room)]
    if data:
        words.append(data.hex(" "))
    line(" ".join(words), meant)


def line(text, meant):
    """One form line. With meant None only the model answers."""
    global forms
    found = session.answer(text)
    if meant is not None and found != ["form " + meant]:
        raise SystemExit("%s\n meant %s\n found %s" % (text, meant, found))
    lines.append(text)
    forms += 1


def good(name, data, blocks, parameters, rows, room=None):
    job(name, data, room, "%s: %d blocks, %d parameters, %d rows"
        % (name, blocks, parameters, rows))


def bad(name, number, before, rest, stored, room=None):
    """Refused at the first byte after before."""
    job(name, before + rest, room,
        "%s: refused %d side 0 place %d rows 0 0 stored %d"
        % (name, number, len(before), stored))


def show(name):
    session.answer("show " + name)
    lines.append("show " + name)


# Things used in many groups.

GIVE = row("give", 0)
GO = row("go", 0)
MOVE = row("move", 1, 2)
SMALLEST = form([], block(GIVE))

# Ways of refusal 1. The input has to end after the two that are cut.
CUT = b""
CUT_INSIDE = bytes.fromhex("81 80")
LONG = bytes.fromhex("81 00")
LARGE = b"\x80" * 9 + b"\x02"


def around(where, ending):
    """A form of 3 blocks with a hole for one row: in the first, middle or
    last block. Gives the bytes before, the bytes after, rows before."""
    first = block(row("go", 1))
    middle = block(row("fit", 2, 1), row("go", 2))
    last = block(row("load", 0, 1), row("store", 0, 1), GIVE)
    head = nums(3, 1, 1)
    if where == 0:
        before = head + num(1 if ending else 2)
        after = (b"" if ending else GIVE) + middle + last
        return before, after, 0
    if where == 1:
        before = head + first + num(2 if ending else 3) + row("fit", 2, 1)
        after = (b"" if ending else row("go", 2)) + last
        return before, after, 2
    before = (head + first + middle + num(3 if ending else 4)
              + row("load", 0, 1) + row("store", 0, 1))
    after = b"" if ending else GIVE
    return before, after, 5


def each_field():
    """Every field of every kind: kind, index, letter."""
    for kind, letters in FIELDS.items():
        for i, letter in enumerate(letters):
            yield kind, i, letter


def in_row(where, kind, i, fault, whole=True):
    """A fault in field i of a row, the other fields in range.
    Gives the bytes before the fault, the rest, rows stored before."""
    before, after, stored = around(where, kind in model.ENDINGS)
    letters = FIELDS[kind]
    fields = [num(LIMIT.get(letter, 300)) for letter in letters]
    before += num(kind) + b"".join(fields[:i])
    rest = fault
    if whole:
        rest += b"".join(fields[i + 1:]) + after
    return before, rest, stored


# The groups.

def writing():
    group("the smallest form, and ways of writing bytes and comments")
    good("a", SMALLEST, 1, 0, 1)
    line("form a 0100010a 00   # give", "a: 1 blocks, 0 parameters, 1 rows")
    show("a")
    lines.append("")


def shown():
    group("every kind, all fields 0; every ending alone in a block")
    good("b", form([0], block(row("move", 0, 0), row("constant", 0, 0),
                              row("operate", 0, 0, 0, 0), row("fit", 0, 0),
                              row("load", 0, 0), row("store", 0, 0),
                              row("call", 0, 0, 0), row("go", 0)),
                   block(row("choose", 0, 0, 0)), block(row("pause", 0)),
                   block(row("give", 0)), block(row("go", 0))), 5, 1, 12)
    show("b")
    group("every kind, all fields at their limit; 8 parameters")
    good("c", form([63] * 8,
                   block(row("move", 63, 63), row("constant", 63, 2**64 - 1),
                         row("operate", 11, 63, 63, 63), row("fit", 63, 63),
                         row("load", 63, 63), row("store", 63, 63),
                         row("call", 255, 63, 63), row("go", 3)),
                   block(row("choose", 63, 3, 3)), block(row("pause", 3)),
                   block(row("give", 63))), 4, 8, 11)
    show("c")
    group("every kind, fields all different, to show their order")
    good("d", form([7, 0, 5],
                   block(row("move", 1, 2), row("constant", 3, 0x1F),
                         row("operate", 1, 2, 3, 4), row("fit", 5, 6),
                         row("load", 8, 9), row("store", 10, 11),
                         row("call", 12, 13, 14), row("choose", 15, 1, 2)),
                   block(row("pause", 2)), block(row("go", 3)),
                   block(row("give", 16))), 4, 3, 11)
    show("d")
    group("every operation")
    good("e", form([], block(*[row("operate", o, o + 20, o + 30, o + 40)
                               for o in range(12)] + [GIVE])), 1, 0, 13)
    show("e")


def numbers():
    group("constants: the largest of each length, 1 to 10 bytes")
    values = [min(2 ** (7 * n), 2 ** 64) - 1 for n in range(1, 11)]
    good("f", form([], block(*[row("constant", n, v)
                               for n, v in enumerate(values)] + [GIVE])),
         1, 0, 11)
    show("f")
    group("constants: the smallest of each length, the last 2^63")
    values = [2 ** (7 * n) for n in range(10)]
    good("g", form([], block(*[row("constant", n, v)
                               for n, v in enumerate(values)] + [GIVE])),
         1, 0, 11)
    show("g")
    before = nums(1, 0, 2, 1, 5)
    group("constants of ten bytes, the tenth 00, 01, 02 (2^64), 7f")
    bad("n", 1, before, b"\x80" * 9 + b"\x00" + GIVE, 0)
    good("n", before + b"\xff" * 9 + b"\x01" + GIVE, 1, 0, 2)
    bad("n", 1, before, b"\x80" * 9 + b"\x02" + GIVE, 0)
    bad("n", 1, before, b"\xff" * 9 + b"\x7f" + GIVE, 0)
    group("constants of eleven bytes, the tenth 80, 81")
    bad("n", 1, before, b"\x80" * 10 + b"\x00" + GIVE, 0)
    bad("n", 1, before, b"\xff" * 9 + b"\x81\x01" + GIVE, 0)
    group("constants not shortest, of 2 and 9 bytes")
    bad("n", 1, before, b"\x80\x00" + GIVE, 0)
    bad("n", 1, before, b"\xff" * 8 + b"\x00" + GIVE, 0)
    group("constants cut off after 0 to 10 bytes")
    going_on = bytes.fromhex("80 81 ff 80 80 fe ff 80 80 81")
    for n in range(11):
        bad("n", 1, before, going_on[:n], 0)


def refusal_1():
    group("refusal 1 in the block count: cut, not shortest, too large")
    bad("h", 1, b"", CUT_INSIDE, 0)
    bad("h", 1, b"", LONG + SMALLEST[1:], 0)
    bad("h", 1, b"", LARGE + SMALLEST[1:], 0)
    group("refusal 1 in the parameter count: not shortest, too large")
    bad("h", 1, num(1), LONG + b"\x05" + block(GIVE), 0)
    bad("h", 1, num(1), LARGE + block(GIVE), 0)
    group("refusal 1 in the first, a middle and the last parameter")
    bad("h", 1, nums(1, 3), LONG + nums(2, 3) + block(GIVE), 0)
    bad("h", 1, nums(1, 3, 1), LARGE + num(3) + block(GIVE), 0)
    bad("h", 1, nums(1, 8, 1, 2, 3, 4, 5, 6, 7), CUT_INSIDE, 0)
    group("refusal 1 in the first, a middle and the last row count")
    bad("h", 1, nums(3, 0), LARGE + GIVE + block(GIVE) * 2, 0)
    bad("h", 1, nums(3, 0) + block(GIVE), LONG + GIVE + block(GIVE), 1)
    bad("h", 1, nums(3, 0) + block(GIVE) * 2, CUT_INSIDE, 2)
    group("refusal 1 in the kind of the first, a middle and the last row")
    bad("h", 1, nums(1, 0, 3), bytes.fromhex("80 00") + nums(1, 2) + MOVE
        + GIVE, 0)
    bad("h", 1, nums(1, 0, 3) + MOVE, LARGE + nums(1, 2) + GIVE, 1)
    bad("h", 1, nums(1, 0, 3) + MOVE * 2, CUT_INSIDE, 2)
    group("refusal 1 in each field of each kind, the reasons and places "
          "in turn")
    ways = [CUT, LONG, LARGE, CUT_INSIDE]
    for count, (kind, i, letter) in enumerate(each_field()):
        if letter == "c":
            continue                # has groups of its own
        way = ways[count % 4]
        whole = way in (LONG, LARGE)
        before, rest, stored = in_row(count % 3, kind, i, way, whole)
        bad("h", 1, before, rest, stored)


def limits():
    group("blocks: 0, 65, 1 + 2^32")
    bad("i", 2, b"", num(0) + SMALLEST[1:], 0)
    bad("i", 2, b"", nums(65, 0) + block(GIVE) * 65, 0)
    bad("i", 2, b"", num(2 ** 32 + 1) + SMALLEST[1:], 0)
    group("blocks: 64, each ending naming the last block")
    good("j", form([], block(row("go", 63)), block(row("choose", 1, 63, 0)),
                   block(row("choose", 1, 0, 63)), block(row("pause", 63)),
                   *[block(row("give", n)) for n in range(4, 64)]), 64, 0, 64)
    show("j")
    group("parameters: 9")
    bad("i", 2, num(1), num(9) + bytes(9) + block(GIVE), 0)
    group("a parameter 64: the first, the last")
    bad("i", 3, nums(1, 8), nums(64, 1, 2, 3, 4, 5, 6, 7) + block(GIVE), 0)
    bad("i", 3, nums(1, 8, 1, 2, 3, 4, 5, 6, 7), num(64) + block(GIVE), 0)
    group("rows in a block: 0 at first, 65 in the middle, 0 at last; 64")
    for n, where in ((0, 0), (65, 1), (0, 2)):
        bad("i", 2, nums(3, 0) + block(GIVE) * where,
            num(n) + MOVE * max(n - 1, 0) + GIVE * min(n, 1)
            + block(GIVE) * (2 - where), where)
    good("i", form([], block(*[MOVE] * 63 + [GIVE])), 1, 0, 64)
    group("rows in a block: 2^64 - 1 after a block of 2")
    bad("i", 2, nums(2, 0) + block(MOVE, GIVE), num(2 ** 64 - 1) + GIVE, 2)
    group("kinds 11, 2^32, 11 at the first, a middle and the last row")
    bad("i", 3, nums(1, 0, 3), nums(11, 1, 2) + MOVE + GIVE, 0)
    bad("i", 3, nums(1, 0, 3) + MOVE, num(2 ** 32) + nums(1, 2) + GIVE, 1)
    bad("i", 3, nums(1, 0, 3) + MOVE * 2, nums(11, 0), 2)
    group("each field of each kind one past its limit, the places in turn")
    for count, (kind, i, letter) in enumerate(each_field()):
        if letter == "c":
            continue
        before, rest, stored = in_row(count % 3, kind, i,
                                      num(LIMIT[letter] + 1))
        bad("i", 3, before, rest, stored)
    group("fields far past their limit: a name 2^32 + 1, a call 2^64 - 1")
    bad("i", 3, *in_row(0, 0, 1, num(2 ** 32 + 1)))
    bad("i", 3, *in_row(2, 6, 0, num(2 ** 64 - 1)))


def many_rows():
    full = block(*[MOVE] * 63 + [GIVE])
    less = block(*[MOVE] * 62 + [GIVE])
    group("rows in all: 8 of 64; and then a ninth of 1")
    good("k", form([], *[full] * 8), 8, 0, 512)
    bad("k", 2, nums(9, 0) + full * 8, block(GIVE), 512)
    group("rows in all: 511 and 1, 511 and 2")
    good("k", form([], *[full] * 7 + [less, block(GIVE)]), 9, 0, 512)
    bad("k", 2, nums(9, 0) + full * 7 + less, block(MOVE, GIVE), 511)
    group("512 rows with room 511 and 512")
    bad("k", 6, nums(8, 0) + full * 7 + num(64) + MOVE * 63, GIVE, 511, 511)
    good("k", form([], *[full] * 8), 8, 0, 512, 512)


def endings():
    group("the last row no ending: in the first, a middle, the last block")
    for where, kind in ((0, 0), (1, 6), (2, 3)):
        before, after, stored = around(where, True)
        bad("l", 4, before, nums(kind, *[1] * len(FIELDS[kind])) + after,
            stored)
    group("two endings, the first each of the four")
    for where, kind in ((0, 7), (1, 8), (2, 9), (0, 10)):
        before, after, stored = around(where, False)
        bad("l", 4, before, nums(kind, *[1] * len(FIELDS[kind])) + after,
            stored)
    group("an ending in the middle")
    bad("l", 4, nums(1, 0, 4) + MOVE, GIVE + MOVE + GIVE, 1)
    group("a block of moves")
    bad("l", 4, nums(1, 0, 3) + MOVE * 2, MOVE, 2)


def order():
    group("misplaced and no room: 4")
    bad("m", 4, nums(1, 0, 1), MOVE, 0, 0)
    bad("m", 4, nums(1, 0, 3) + MOVE, GO + GIVE, 1, 1)
    group("a number out of range or ill written in a misplaced row: 3, 1")
    bad("m", 3, nums(1, 0, 1, 0, 1), num(64), 0)
    bad("m", 3, nums(1, 0, 2, 7), num(1) + GIVE, 0)
    bad("m", 1, nums(1, 0, 1, 0, 1), LONG, 0)
    group("out of range, a kind out of range, cut off, and no room: 3, 3, 1")
    bad("m", 3, nums(1, 0, 1, 10), num(64), 0, 0)
    bad("m", 3, nums(1, 0, 1), num(11), 0, 0)
    bad("m", 1, nums(1, 0, 1, 10), b"", 0, 0)
    group("a count out of range, and the input cut off after it: 2")
    bad("m", 2, b"", num(65), 0)
    bad("m", 2, nums(1, 0), num(65), 0)
    group("not shortest and out of range, the same number: 1")
    bad("m", 1, b"", b"\x80\x00" + SMALLEST[1:], 0)
    bad("m", 1, nums(1, 0, 1, 10), b"\xc0\x00", 0)
    group("two fields out of range: the first")
    bad("m", 3, nums(1, 0, 2, 2), nums(12, 64, 64, 64) + GIVE, 0)
    group("no room, and later a count past 512: 6")
    full = block(*[MOVE] * 63 + [GIVE])
    bad("m", 6, nums(9, 0) + full * 7 + num(64) + MOVE * 63,
        GIVE + block(GIVE), 511, 511)
    group("bytes left over and no room: 6")
    bad("m", 6, nums(1, 0, 1), GIVE + b"\x00", 0, 0)


# A form of 7 rows in 3 blocks, in pieces: the numbers of each piece, and
# whether the piece is a row.
SEVEN_PIECES = [
    (False, (3, 1, 63)),
    (False, (3,)),
    (True, (NUMBER["constant"], 5, 300)),
    (True, (NUMBER["operate"], 10, 6, 5, 63)),
    (True, (NUMBER["choose"], 6, 1, 2)),
    (False, (2,)),
    (True, (NUMBER["call"], 200, 7, 6)),
    (True, (NUMBER["pause"], 2)),
    (False, (2,)),
    (True, (NUMBER["load"], 1, 7)),
    (True, (NUMBER["give"], 1)),
]
SEVEN = b"".join(nums(*values) for _, values in SEVEN_PIECES)


def shortage():
    group("room for 0 to 8 rows, a form of 7 rows")
    before = b""
    room = 0
    for is_row, values in SEVEN_PIECES:
        if is_row:
            bad("o", 6, before, SEVEN[len(before):], room, room)
            room += 1
        before += nums(*values)
    good("o", SEVEN, 3, 1, 7, 7)
    good("o", SEVEN, 3, 1, 7, 8)
    show("o")


def cut_forms():
    group("the form of 7 rows cut off after every byte")
    before = b""
    stored = 0
    for is_row, values in SEVEN_PIECES:
        for value in values:
            for length in range(len(num(value))):
                bad("p", 1, before, num(value)[:length], stored)
            before += num(value)
        if is_row:
            stored += 1


def left_over():
    group("bytes left over: one, one going on, a whole form and room just "
          "enough")
    bad("q", 5, SMALLEST, b"\x00", 1)
    bad("q", 5, SMALLEST, b"\x80", 1)
    bad("q", 5, SEVEN, SEVEN, 7, 7)
    group("nothing at all, with room")
    bad("q", 1, b"", b"", 0, 3)


def again():
    group("a name refused keeps its form, at an early and at a late refusal")
    good("r", SEVEN, 3, 1, 7)
    bad("r", 2, b"", num(0), 0)
    show("r")
    other = form([], block(*[row("store", n, n + 1) for n in range(9)]
                           + [GIVE]))
    bad("r", 5, other, b"\x00", 10)
    bad("r", 6, other[:-2], GIVE, 9, 9)
    show("r")
    group("then replaced, by a longer and by a shorter form")
    good("r", other, 1, 0, 10, 10)
    show("r")
    good("r", form([9], block(row("give", 9))), 1, 1, 1)
    show("r")


def by_chance():
    chance = random.Random(20240607)

    def pick(n):
        return int(chance.random() * n)

    def word():
        return pick(2 ** (1 + pick(53))) << pick(12)

    def any_row(kind, blocks):
        value = {"n": lambda: pick(64), "c": word, "o": lambda: pick(12),
                 "k": lambda: pick(256), "t": lambda: pick(blocks)}
        return nums(kind, *[value[letter]() for letter in FIELDS[kind]])

    def any_form():
        """Bytes under 40, blocks, parameters, rows."""
        while True:
            blocks = 1 + pick(4)
            parameters = [pick(64) for _ in range(pick(4))]
            rows = 0
            parts = []
            for _ in range(blocks):
                inner = pick(4)
                parts.append(block(*[any_row(pick(7), blocks)
                                     for _ in range(inner)]
                                   + [any_row(7 + pick(4), blocks)]))
                rows += inner + 1
            data = form(parameters, *parts)
            if len(data) < 40:
                return data, blocks, len(parameters), rows

    group("by chance: good forms, every other one with room just enough")
    for n in range(CHANCE):
        data, blocks, parameters, rows = any_form()
        good("s", data, blocks, parameters, rows, rows if n % 2 else None)
    group("by chance: one byte changed, removed or added")
    for n in range(CHANCE):
        data, blocks, parameters, rows = any_form()
        at = pick(len(data))
        if n % 3 == 0:
            other = data[at] ^ (1 << pick(8))
            data = data[:at] + bytes([other]) + data[at + 1:]
        elif n % 3 == 1:
            data = data[:at] + data[at + 1:]
        else:
            data = data[:at] + bytes([pick(256)]) + data[at:]
        job("t", data, rows if n % 2 else None, None)
    group("the last good form by chance is still there")
    show("s")


CHANCE = 34   # forms of each of the two groups by chance


if __name__ == "__main__":
    for part in (writing, shown, numbers, refusal_1, limits, many_rows,
                 endings, order, shortage, cut_forms, left_over, again,
                 by_chance):
        start = forms
        part()
        print("%-10s %3d forms" % (part.__name__, forms - start))
    print("%-10s %3d forms" % ("in all", forms))
    with open("read.jobs", "w") as file:
        file.write("\n".join(lines) + "\n")
