"""A model of the form reader and of the session: what a job file must
answer. Banks are in banks.py.

    python3 model.py FILE
"""

import sys
import banks

# Kinds of row: number -> (name, fields in the order written).
# n a name, c a constant, o an operation, k a call number, t a block.
KINDS = {
    0: ("move", "nn"),
    1: ("constant", "nc"),
    2: ("operate", "onnn"),
    3: ("fit", "nn"),
    4: ("load", "nn"),
    5: ("store", "nn"),
    6: ("call", "knn"),
    7: ("go", "t"),
    8: ("choose", "ntt"),
    9: ("pause", "t"),
    10: ("give", "n"),
}
ENDINGS = (7, 8, 9, 10)

OPERATIONS = ["add", "subtract", "multiply", "and", "or", "xor",
              "shl", "shr", "divide", "remainder", "less", "equal"]

NAMES = 64        # names are 0 to 63
CALLS = 256       # call numbers are 0 to 255
BLOCKS = 64       # most blocks in a form
PARAMETERS = 8    # most parameters of a form
BLOCK_ROWS = 64   # most rows in a block
FORM_ROWS = 512   # most rows in a form
WORD = 2 ** 64    # words are below this
GROUPS = 10       # most groups in a number

BAD_NUMBER = 1
BAD_COUNT = 2
BAD_FIELD = 3
BAD_ENDING = 4
LEFT_OVER = 5
NO_ROOM = 6


class Refused(Exception):
    def __init__(self, number, place):
        super().__init__(number, place)
        self.number = number
        self.place = place


class Reader:
    """Takes numbers from bytes, one after the other."""

    def __init__(self, data):
        self.data = data
        self.at = 0

    def number(self):
        """The next number; refusal 1 names its first byte."""
        start = self.at
        groups = []
        while True:
            if self.at == len(self.data):          # cut off
                raise Refused(BAD_NUMBER, start)
            byte = self.data[self.at]
            self.at += 1
            groups.append(byte & 0x7F)
            if len(groups) > GROUPS:               # too large
                raise Refused(BAD_NUMBER, start)
            if byte & 0x80 == 0:
                break
        if len(groups) > 1 and groups[-1] == 0:    # not shortest
            raise Refused(BAD_NUMBER, start)
        value = sum(group << (7 * i) for i, group in enumerate(groups))
        if value >= WORD:                          # too large
            raise Refused(BAD_NUMBER, start)
        return value

    def between(self, low, high, refusal):
        """The next number, refused if not from low to high."""
        start = self.at
        value = self.number()
        if not low <= value <= high:
            raise Refused(refusal, start)
        return value

    def done(self):
        return self.at == len(self.data)


class Form:
    def __init__(self, parameters, blocks):
        self.parameters = parameters   # names
        self.blocks = blocks           # per block, its rows: (kind, fields)

    def summary(self):
        return "%d blocks, %d parameters, %d rows" % (
            len(self.blocks), len(self.parameters),
            sum(len(rows) for rows in self.blocks))


def read_field(reader, letter, block_count):
    highest = {
        "n": NAMES - 1,
        "c": WORD - 1,
        "o": len(OPERATIONS) - 1,
        "k": CALLS - 1,
        "t": block_count - 1,
    }[letter]
    return reader.between(0, highest, BAD_FIELD)


def read_row(reader, block_count, last, room, buffer):
    """Reads one row and stores it in the buffer."""
    start = reader.at
    kind = reader.between(0, max(KINDS), BAD_FIELD)
    fields = [read_field(reader, letter, block_count)
              for letter in KINDS[kind][1]]
    if (kind in ENDINGS) != last:
        raise Refused(BAD_ENDING, start)
    if len(buffer) >= room:
        raise Refused(NO_ROOM, start)
    row = (kind, fields)
    buffer.append(row)
    return row


def read_form(data, room, buffer):
    """The form in data. The buffer gets each accepted row, and keeps
    those stored before a refusal."""
    reader = Reader(data)
    block_count = reader.between(1, BLOCKS, BAD_COUNT)
    parameter_count = reader.between(0, PARAMETERS, BAD_COUNT)
    parameters = [reader.between(0, NAMES - 1, BAD_FIELD)
                  for _ in range(parameter_count)]
    blocks = []
    total = 0
    for _ in range(block_count):
        most = min(BLOCK_ROWS, FORM_ROWS - total)
        row_count = reader.between(1, most, BAD_COUNT)
        total += row_count
        blocks.append([read_row(reader, block_count, i == row_count - 1,
                                room, buffer)
                       for i in range(row_count)])
    if not reader.done():
        raise Refused(LEFT_OVER, reader.at)
    return Form(parameters, blocks)


def field_text(letter, value):
    if letter == "o":
        return OPERATIONS[value]
    if letter == "c":
        return "0x%x" % value
    return str(value)


def show_lines(name, form):
    lines = ["form %s: %s" % (name, form.summary())]
    lines.append(" ".join(["parameters:"] + [str(p) for p in form.parameters]))
    for b, rows in enumerate(form.blocks):
        for i, (kind, fields) in enumerate(rows):
            title, letters = KINDS[kind]
            words = [title] + [field_text(letter, value)
                               for letter, value in zip(letters, fields)]
            lines.append("block %d row %d: %s" % (b, i, " ".join(words)))
    return lines


class Session:
    """Carries out job lines one by one; holds the forms and banks defined
    so far, by name."""

    def __init__(self):
        self.objects = {}

    def answer(self, line):
        """The answer lines to one job line."""
        words = line.split("#", 1)[0].split()
        if not words:
            return []
        if words[0] == "form" and len(words) >= 2:
            return self.define(words[1], words[2:])
        if words[0] in banks.JOBS:
            return banks.answer(self.objects, words)
        if words[0] == "show" and len(words) == 2:
            return self.show(words[1])
        raise ValueError("no such job: " + line)

    def define(self, name, words):
        room = FORM_ROWS
        if words and words[0] == "rows":
            room = int(words[1])
            words = words[2:]
        data = b"".join(bytes.fromhex(word) for word in words)
        buffer = []
        try:
            form = read_form(data, room, buffer)
        except Refused as refused:
            return ["form %s: refused %d side 0 place %d rows 0 0 stored %d"
                    % (name, refused.number, refused.place, len(buffer))]
        self.objects[name] = form
        return ["form %s: %s" % (name, form.summary())]

    def show(self, name):
        # The rules give no answer for an undefined name: KeyError.
        thing = self.objects[name]
        if banks.is_bank(thing):
            return banks.show_lines(name, thing)
        return show_lines(name, thing)


def carry_out(job_text):
    session = Session()
    lines = []
    for line in job_text.split("\n"):
        lines += session.answer(line)
    return "".join(line + "\n" for line in lines)


if __name__ == "__main__":
    if len(sys.argv) != 2:
        sys.exit("python3 model.py FILE")
    with open(sys.argv[1]) as file:
        sys.stdout.write(carry_out(file.read()))
