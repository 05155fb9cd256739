"""Writes bank.jobs: banks and frames, good and bad, group by group.

Each job states the answer it is meant to have, counted from how the job
was built; the model has to agree or nothing is written. What a bank holds
is stated in numbers (units, halves, slots), and the looks are counted from
them by remainders, where the model cuts bytes.

    python3 bank_jobs.py
"""

import model

lines = []
session = model.Session()
answers = 0


# Writing jobs.

def group(text):
    lines.append("# " + text)


def line(text, meant):
    """One job line and all its answer lines."""
    global answers
    found = session.answer(text)
    if found != meant:
        raise SystemExit("%s\n meant %s\n found %s" % (text, meant, found))
    lines.append(text)
    answers += len(found)


def good(name, kind, words, count):
    line(" ".join(["bank", name, kind] + [str(word) for word in words]),
         ["bank %s: %d names" % (name, count)])


def bad(name, kind, *words):
    line(" ".join(["bank", name, kind] + [str(word) for word in words]),
         ["bank %s: refused 15 side 0 place 0 rows 0 0" % name])


def variables(name, *widths):
    good(name, "variables", widths, len(widths))


def nested(name, word):
    good(name, "nested", ["0x%x" % word], 32)


def paired(name, word):
    good(name, "paired", ["0x%x" % word], 30)


def frame(name, base, count, *widths):
    """count: names in all."""
    good(name, "frame", [base] + list(widths), count)


def put(name, a, word):
    line("put %s %d 0x%x" % (name, a, word), [])


def call_loss(name, word):
    line("call-loss %s 0x%x" % (name, word), [])


def pause_loss(name, word):
    line("pause-loss %s 0x%x" % (name, word), [])


def show(name, looks):
    line("show " + name,
         [" ".join(["bank %s:" % name] + ["0x%x" % look for look in looks])])


# What banks look like.

def of_units(units):
    """The looks of a nested bank, from its 8 units."""
    return [unit % 256 ** width for unit in units for width in (1, 2, 4, 8)]


def of_halves(low, high):
    """The looks of a paired bank, from its two halves."""
    whole = low + high * 256 ** 8
    return [whole // 256 ** start % 256 ** width
            for width in (1, 2, 4, 8) for start in range(0, 16, width)]


# Words used in many groups. No byte of one is a byte of another.
W = 0x1122334455667788
P = 0xa1b2c3d4e5f60718
C = 0x2a2b2c2d2e2f3a3b    # a word for calls
S = 0x9c9d9e9f6c6d6e6f    # a word for pauses
ONES = 2 ** 64 - 1

# W after the lowest 1, 2, 4, 8 bytes of a nested unit took those of P.
W_PUT_P = [0x1122334455667718, 0x1122334455660718, 0xe5f60718,
           0xa1b2c3d4e5f60718]

BAD_WIDTHS = [0, 3, 5, 6, 7, 9, 16, 255, 256, 2 ** 63]
PLACES = ("first", "middle", "last")


def with_bad(width, place):
    """Widths with one bad among four good."""
    widths = [1, 2, 4, 8]
    widths.insert({"first": 0, "middle": 2, "last": 4}[place], width)
    return widths


# The groups.

def worked():
    group("a unit by four bytes, which clear the rest; made anew, by one byte")
    nested("n", W)
    put("n", 2, 0xaabbccdd)
    show("n", of_units([0xaabbccdd] + [W] * 7))
    nested("n", W)
    put("n", 0, 0x99)
    show("n", of_units([0x1122334455667799] + [W] * 7))


def few_variables():
    group("one variable, the narrowest and the widest, put eight bytes")
    for width, cut in ((1, 0x18), (8, P)):
        variables("v", width)
        put("v", 0, P)
        show("v", [cut])
    group("one of each width: at first; put what just fills it, and one "
          "more")
    variables("v", 1, 2, 4, 8)
    show("v", [0, 0, 0, 0])
    for more, looks in ((0, [0xff, 0xffff, 0xffffffff, ONES]),
                        (1, [0, 0, 0, 0])):
        for a, width in enumerate((1, 2, 4, 8)):
            put("v", a, (256 ** width - 1 + more) % 2 ** 64)
        show("v", looks)
    group("then the word put under one after the other")
    looks = [0, 0, 0, 0]
    for a, cut in ((3, P), (0, 0x18), (2, 0xe5f60718), (1, 0x718)):
        put("v", a, P)
        looks[a] = cut
        show("v", looks)
    group("under 3, the last, and under 4, 5, 63, 64, 128, 255, which are "
          "none")
    put("v", 3, 0x55)
    looks[3] = 0x55
    for a in (4, 5, 63, 64, 128, 255):
        put("v", a, C)
    show("v", looks)
    group("variables keep all over a call and a pause")
    call_loss("v", C)
    show("v", looks)
    pause_loss("v", S)
    show("v", looks)


def many_variables():
    group("64 variables: at first; each put its number; then 0, 31, 32, 63 "
          "put, and none by 64, 255")
    variables("w", *[1, 2, 4, 8] * 16)
    show("w", [0] * 64)
    for a in range(64):
        put("w", a, a)
    show("w", range(64))
    for a in (0, 31, 32, 63, 64, 255):
        put("w", a, ONES - a)
    show("w", [0xff] + list(range(1, 31)) + [ONES - 31, 0xff - 32]
         + list(range(33, 63)) + [ONES - 63])
    group("no variables, 65 of them, 64 of the widest")
    bad("w", "variables")
    bad("w", "variables", *[8] * 65)
    variables("w", *[8] * 64)


def bad_widths():
    group("a bank to be left as it stands")
    variables("b", 1, 2)
    put("b", 1, P)
    for place in PLACES:
        group("a bad width, the %s of five" % place)
        for width in BAD_WIDTHS:
            bad("b", "variables", *with_bad(width, place))
    group("bad widths that are good when cut to a byte, to four bytes")
    bad("b", "variables", 257)
    bad("b", "variables", 8, 2 ** 32 + 4)
    group("a bad width, the last of 64")
    bad("b", "variables", *[1] * 63 + [16])
    group("two faults: two bad widths, a bad width among 65")
    bad("b", "variables", 0, 1, 3)
    bad("b", "variables", *[1] * 64 + [5])
    group("after all these the bank is as it stood")
    show("b", [0, 0x718])


# Below, a pause with the word W makes a bank as if made from W.

def nested_put():
    group("nested made from 0, from all ones")
    for word in (0, ONES):
        nested("n", word)
        show("n", of_units([word] * 8))
    for u in (0, 7):
        group("each name of unit %d put, all lost before" % u)
        for k in range(4):
            pause_loss("n", W)
            put("n", 4 * u + k, P)
            units = [W] * 8
            units[u] = W_PUT_P[k]
            show("n", of_units(units))
    group("zeros put among ones: four bytes, two bytes, one byte")
    pause_loss("n", ONES)
    put("n", 4 * 2 + 2, 0)
    put("n", 4 * 3 + 1, 0)
    put("n", 4 * 4 + 0, 0)
    show("n", of_units([ONES, ONES, 0, 0xffffffffffff0000,
                        0xffffffffffffff00, ONES, ONES, ONES]))
    group("one unit, one put after the other: 8, 1, 2, 4, 1 bytes")
    pause_loss("n", 0)
    for k, word, unit in ((3, P, 0xa1b2c3d4e5f60718),
                          (0, 0x99, 0xa1b2c3d4e5f60799),
                          (1, 0x7777, 0xa1b2c3d4e5f67777),
                          (2, 0x12345678, 0x12345678),
                          (0, ONES, 0x123456ff)):
        put("n", 4 * 5 + k, word)
        show("n", of_units([0] * 5 + [unit] + [0] * 2))
    group("under 31, the last, and under 32, 35, 63, 64, 66, 255, which are "
          "none")
    pause_loss("n", W)
    put("n", 31, P)
    for a in (32, 35, 63, 64, 66, 255):
        put("n", a, 0)
    show("n", of_units([W] * 7 + [P]))


def nested_lost():
    group("each unit its own number; a call, another call, a pause")
    nested("n", 0)
    own = [(u + 1) * 0x0101010101010101 for u in range(8)]
    for u in range(8):
        put("n", 4 * u + 3, own[u])
    call_loss("n", C)
    show("n", of_units([C] * 4 + own[4:]))
    call_loss("n", 0)
    show("n", of_units([0] * 4 + own[4:]))
    pause_loss("n", S)
    show("n", of_units([S] * 8))
    group("one name of each unit put, in four ways: every name once; each "
          "time a call")
    for way in range(4):
        pause_loss("n", W)
        units = []
        for u in range(8):
            put("n", 4 * u + (u + way) % 4, P)
            units.append(W_PUT_P[(u + way) % 4])
        show("n", of_units(units))
        call_loss("n", C)
        show("n", of_units([C] * 4 + units[4:]))
    group("puts into what was lost at a call")
    put("n", 12, 0x99)
    put("n", 10, 0x98979695)
    put("n", 5, 0x9493)
    show("n", of_units([C, 0x2a2b2c2d2e2f9493, 0x98979695,
                        0x2a2b2c2d2e2f3a99] + units[4:]))


def paired_put():
    group("paired made from 0, from a word")
    for word in (0, W):
        paired("p", word)
        show("p", of_halves(word, word))
    group("each size put at both ends, all lost before")
    for a, low, high in ((0, 0x1122334455667718, W),
                         (15, W, 0x1822334455667788),
                         (16, 0x1122334455660718, W),
                         (23, W, 0x0718334455667788),
                         (24, 0x11223344e5f60718, W),
                         (27, W, 0xe5f6071855667788),
                         (28, 0xa1b2c3d4e5f60718, W),
                         (29, W, 0xa1b2c3d4e5f60718)):
        pause_loss("p", W)
        put("p", a, P)
        show("p", of_halves(low, high))
    group("all cells put, all pairs, all fours, both halves")
    for c in range(16):
        put("p", c, 0xa0 + c)
    show("p", of_halves(0xa7a6a5a4a3a2a1a0, 0xafaeadacabaaa9a8))
    for i in range(8):
        put("p", 16 + i, 0xb0c0 + i)
    show("p", of_halves(0xb0c3b0c2b0c1b0c0, 0xb0c7b0c6b0c5b0c4))
    for i in range(4):
        put("p", 24 + i, 0xd0e0f000 + i)
    show("p", of_halves(0xd0e0f001d0e0f000, 0xd0e0f003d0e0f002))
    put("p", 28, W)
    put("p", 29, P)
    show("p", of_halves(W, P))
    group("overlaps: a half, a four in it, a pair in that, a cell in that, "
          "the pair beside; then the half anew")
    put("p", 29, 0)
    for a, word, high in ((26, 0x11121314, 0x0000000011121314),
                          (21, 0x2122, 0x0000000021221314),
                          (11, 0x31, 0x0000000031221314),
                          (22, 0x4142, 0x0000414231221314),
                          (29, C, C)):
        put("p", a, word)
        show("p", of_halves(W, high))
    group("nothing is cleared: a four, a pair, a cell of 0 among ones")
    pause_loss("p", ONES)
    put("p", 24, 0)
    put("p", 21, 0)
    put("p", 13, 0)
    show("p", of_halves(0xffffffff00000000, 0xffff00ff0000ffff))
    group("under 29, the last, and under 30, 31, 32, 63, 64, 255, which are "
          "none")
    pause_loss("p", W)
    put("p", 29, P)
    for a in (30, 31, 32, 63, 64, 255):
        put("p", a, 0)
    show("p", of_halves(W, P))


def paired_lost():
    group("each cell its own number; a call, another call, a pause")
    paired("p", 0)
    put("p", 28, 0x0706050403020100)
    put("p", 29, 0x0f0e0d0c0b0a0908)
    call_loss("p", W)
    show("p", of_halves(W, 0x0f0e0d0c0b0a0908))
    call_loss("p", C)
    show("p", of_halves(C, 0x0f0e0d0c0b0a0908))
    pause_loss("p", S)
    show("p", of_halves(S, S))
    group("puts of each width on both sides of the middle, each time a call")
    for a, b, high in ((7, 8, 0x1122334455667718),
                       (19, 20, 0x1122334455660718),
                       (25, 26, 0x11223344e5f60718),
                       (28, 29, P)):
        pause_loss("p", W)
        put("p", a, P)
        put("p", b, P)
        call_loss("p", C)
        show("p", of_halves(C, high))


def slot_counts():
    group("frames of 1 and 32 slots, of none, of 33")
    variables("v", 8)
    nested("n", W)
    paired("p", W)
    frame("f", "v", 2, 1)
    frame("f", "v", 33, *[1, 2, 4, 8] * 8)
    bad("f", "frame", "v")
    bad("f", "frame", "v", *[8] * 33)
    frame("f", "n", 33, 2)
    bad("f", "frame", "n")
    frame("f", "p", 31, 4)
    bad("f", "frame", "p")
    bad("f", "frame", "p", *[1] * 33)
    group("64 and 65 names: over 32, 33, 63 and 64 variables")
    variables("v", *[1] * 32)
    frame("f", "v", 64, *[4] * 32)
    variables("v", *[1] * 33)
    bad("f", "frame", "v", *[4] * 32)
    variables("v", *[1] * 63)
    frame("f", "v", 64, 8)
    bad("f", "frame", "v", 8, 8)
    variables("v", *[8] * 64)
    bad("f", "frame", "v", 1)
    group("64 and 65 names: over nested; 33 slots are too many anyhow")
    frame("f", "n", 64, *[1] * 32)
    bad("f", "frame", "n", *[1] * 33)
    group("a second layer over 64 names")
    bad("g", "frame", "f", 1)
    group("64 and 65 names: two layers over paired")
    frame("f", "p", 62, *[1] * 32)
    frame("g", "f", 64, 8, 8)
    bad("g", "frame", "f", 8, 8, 8)
    group("a second layer: no slot, 33 slots, bad widths; 32 slots")
    variables("v", 1)
    frame("f", "v", 2, 1)
    bad("g", "frame", "f")
    bad("g", "frame", "f", *[1] * 33)
    bad("g", "frame", "f", 3)
    bad("g", "frame", "f", 8, 8, 256)
    frame("g", "f", 34, *[1] * 32)


def slot_widths():
    group("a bad width, the first, middle and last of five slots, in turn")
    nested("n", W)
    frame("f", "n", 34, 1, 8)
    put("f", 33, P)
    for i, width in enumerate((0, 3, 7, 9, 16, 256, 257, 2 ** 63)):
        bad("f", "frame", "n", *with_bad(width, PLACES[i % 3]))
    group("two faults: a bad width in 33 slots, a bad width and 65 names")
    bad("f", "frame", "n", *[1] * 32 + [3])
    bad("f", "frame", "w", 0)
    group("after all these the frame is as it stood")
    show("f", of_units([W] * 8) + [0, P])


def slots_put():
    group("slots of every width: at first; a wide word in each but the last; "
          "then the last, the last but one, past the end")
    paired("p", W)
    frame("f", "p", 35, 8, 4, 2, 1, 8)
    low = of_halves(W, W)
    show("f", low + [0, 0, 0, 0, 0])
    for a in range(30, 34):
        put("f", a, P)
    show("f", low + [P, 0xe5f60718, 0x718, 0x18, 0])
    put("f", 34, ONES)
    put("f", 33, 0)
    for a in (35, 36, 62, 63, 64, 65, 94, 255):
        put("f", a, C)
    show("f", low + [P, 0xe5f60718, 0x718, 0, ONES])
    group("a frame of 64 names: the last below, the first slot, the last, "
          "and none by 64, 96, 255")
    nested("n", 0)
    frame("f", "n", 64, *[8] * 32)
    for a in (31, 32, 63, 64, 96, 255):
        put("f", a, W + a)
    show("f", of_units([0] * 7 + [W + 31]) + [W + 32] + [0] * 30 + [W + 63])


def below_put():
    group("through a frame: each name of a nested unit, the rest cleared by "
          "four bytes alone")
    nested("n", W)
    frame("f", "n", 33, 8)
    put("f", 32, P)
    for k in range(4):
        pause_loss("f", W)
        put("f", 4 * 3 + k, P)
        show("f", of_units([W] * 3 + [W_PUT_P[k]] + [W] * 4) + [P])
    group("through two layers over nested: below, in each layer, past the "
          "end; then a call and a pause")
    frame("f", "n", 33, 8)
    frame("g", "f", 34, 4)
    for a in (2, 29, 32, 33, 34, 63, 64):
        put("g", a, P)
    show("g", of_units([W_PUT_P[2]] + [W] * 6 + [W_PUT_P[1]])
         + [P, 0xe5f60718])
    call_loss("g", C)
    show("g", of_units([C] * 4 + [W] * 3 + [W_PUT_P[1]]) + [P, 0xe5f60718])
    pause_loss("g", S)
    show("g", of_units([S] * 8) + [P, 0xe5f60718])
    group("through two layers over paired")
    paired("p", W)
    frame("f", "p", 31, 8)
    frame("g", "f", 32, 4)
    for a in (24, 15, 30, 31, 32, 63, 64):
        put("g", a, P)
    show("g", of_halves(0x11223344e5f60718, 0x1822334455667788)
         + [P, 0xe5f60718])


def slots_kept():
    group("slots of every width over nested: a call, a pause")
    nested("n", W)
    frame("f", "n", 36, 1, 2, 4, 8)
    for a in (32, 33, 34, 35, 15, 19):
        put("f", a, P)
    call_loss("f", C)
    show("f", of_units([C] * 4 + [P, W, W, W]) + [0x18, 0x718, 0xe5f60718, P])
    pause_loss("f", S)
    show("f", of_units([S] * 8) + [0x18, 0x718, 0xe5f60718, P])
    group("over paired")
    paired("p", W)
    frame("f", "p", 34, 8, 4, 2, 1)
    for a in (30, 31, 32, 33, 7, 8):
        put("f", a, P)
    call_loss("f", C)
    show("f", of_halves(C, 0x1122334455667718)
         + [P, 0xe5f60718, 0x718, 0x18])
    pause_loss("f", S)
    show("f", of_halves(S, S) + [P, 0xe5f60718, 0x718, 0x18])
    group("over variables, which are kept too")
    variables("v", 8, 1)
    frame("f", "v", 4, 2, 4)
    for a in range(4):
        put("f", a, P)
    call_loss("f", C)
    pause_loss("f", S)
    show("f", [P, 0x18, 0x718, 0xe5f60718])


def copies():
    group("a frame is over a copy: what the base held, not what is put into "
          "it later, and the other way round")
    variables("v", 4, 4)
    put("v", 0, 1)
    frame("f", "v", 3, 4)
    put("v", 1, 2)
    put("f", 0, 3)
    put("f", 2, 4)
    show("v", [1, 2])
    show("f", [3, 0, 4])
    group("two layers: each has its own copy, slots too")
    frame("g", "f", 4, 4)
    put("v", 0, 0x10)
    put("f", 0, 0x20)
    put("f", 2, 0x21)
    show("g", [3, 0, 4, 0])
    put("g", 0, 0x30)
    put("g", 2, 0x31)
    put("g", 3, 0x32)
    show("v", [0x10, 2])
    show("f", [0x20, 0, 0x21])
    show("g", [0x30, 0, 0x31, 0x32])
    group("two frames over one nested bank; losses of one are not the others'")
    nested("n", W)
    frame("f", "n", 33, 1)
    frame("g", "n", 33, 2)
    call_loss("n", C)
    pause_loss("f", S)
    put("g", 0, 0)
    show("n", of_units([C] * 4 + [W] * 4))
    show("f", of_units([S] * 8) + [0])
    show("g", of_units([0x1122334455667700] + [W] * 7) + [0])
    group("the base defined anew, by another kind: the frame keeps the old")
    paired("n", P)
    call_loss("g", 0)
    show("g", of_units([0] * 4 + [W] * 4) + [0])
    group("a frame over itself, made by its own name, twice")
    variables("v", 2)
    put("v", 0, 0x1234)
    frame("v", "v", 2, 1)
    put("v", 1, 0x56)
    frame("v", "v", 3, 8)
    show("v", [0x1234, 0x56, 0])


def again():
    group("refused definitions leave a bank as it stood, whatever it is")
    nested("n", W)
    put("n", 0, 0x99)
    bad("n", "variables", 1, 3)
    bad("n", "frame", "n", 8, 9)
    show("n", of_units([0x1122334455667799] + [W] * 7))
    frame("f", "n", 33, 2)
    put("f", 32, 0xabcd)
    bad("f", "frame", "f", *[1] * 32)
    bad("f", "variables")
    show("f", of_units([0x1122334455667799] + [W] * 7) + [0xabcd])
    group("replaced by another kind, and by the same anew")
    paired("f", W)
    variables("f", 1, 8)
    show("f", [0, 0])
    put("f", 1, ONES)
    variables("f", 1, 8)
    show("f", [0, 0])


GIVE = ["1 blocks, 1 parameters, 1 rows", "parameters: 5",
        "block 0 row 0: give 5"]


def form(name):
    line("form %s 01 01 05 01 0a 05" % name,
         ["form %s: %s" % (name, GIVE[0])])


def bad_form(name):
    line("form %s 00" % name,
         ["form %s: refused 2 side 0 place 0 rows 0 0 stored 0" % name])


def show_form(name):
    line("show " + name, ["form %s: %s" % (name, GIVE[0])] + GIVE[1:])


def with_forms():
    group("a bank takes a form's name, a form a bank's; refused, neither does")
    form("x")
    bad("x", "variables", 7)
    show_form("x")
    variables("x", 4)
    put("x", 0, P)
    bad_form("x")
    show("x", [0xe5f60718])
    form("x")
    show_form("x")
    group("the base's name becomes a form's: the frame keeps its bank; then "
          "a frame takes that name")
    variables("x", 8)
    put("x", 0, W)
    frame("f", "x", 2, 2)
    form("x")
    put("f", 0, W + 1)
    show("f", [W + 1, 0])
    frame("x", "f", 3, 1)
    show("x", [W + 1, 0, 0])


def writing():
    group("ways of writing numbers, blanks and comments")
    line("bank v variables 0x1 0x02 4 0x8", ["bank v: 4 names"])
    line("put v 0x3 18446744073709551615   # all ones", [])
    line("put v 0x0 0xfe", [])
    line("  put   v  2   4294967297", [])
    show("v", [0xfe, 0, 1, ONES])
    line("bank n nested 1000", ["bank n: 32 names"])
    line("put n 31 18446744073709551614", [])
    line("call-loss n 255", [])
    show("n", of_units([255] * 4 + [1000] * 3 + [ONES - 1]))
    line("bank p paired 256", ["bank p: 30 names"])
    line("pause-loss p 65538", [])
    show("p", of_halves(65538, 65538))
    group("names that are words or numbers")
    line("bank variables variables 1", ["bank variables: 1 names"])
    line("bank 8 frame variables 8", ["bank 8: 2 names"])
    line("bank frame frame 8 8", ["bank frame: 3 names"])
    line("put frame 2 8", [])
    show("frame", [0, 0, 8])


if __name__ == "__main__":
    for part in (worked, few_variables, many_variables, bad_widths,
                 nested_put, nested_lost, paired_put, paired_lost,
                 slot_counts, slot_widths, slots_put, below_put, slots_kept,
                 copies, again, with_forms, writing):
        start = answers
        part()
        print("%-14s %3d answer lines" % (part.__name__, answers - start))
    print("%-14s %3d answer lines" % ("in all", answers))
    with open("bank.jobs", "w") as file:
        file.write("\n".join(lines) + "\n")
