"""Writes what the gate runs the program on, and what it must print.

    python3 table.py

The program is run with `--demo` and `-`: the demonstration, then all jobs of
crates/agree/stdin. The answers are the model's; those of chance.jobs and
bank-chance.jobs come from another model, and this one has to agree with them
or nothing is written.
"""

import os
import model

HERE = os.path.dirname(os.path.abspath(__file__))
AGREE = os.path.join(HERE, "..", "crates", "agree")

# Tables in the order in which they are run; the answers of another model.
TABLES = [
    ("read.jobs", None),
    ("chance.jobs", "chance.answers"),
    ("bank.jobs", None),
    ("bank-chance.jobs", "bank-chance.answers"),
]


def text(name):
    with open(os.path.join(HERE, name)) as file:
        return file.read()


def write(name, content):
    with open(os.path.join(AGREE, name), "w") as file:
        file.write(content)


def prints(line):
    return line.split()[:1] in (["form"], ["bank"], ["show"])


jobs = ""
answers = ""
for table, other in TABLES:
    own = model.carry_out(text(table))
    if other is not None and text(other) != own:
        raise SystemExit("the models differ on " + table)
    jobs += text(table)
    answers += own
answers = model.carry_out(text("demo.jobs")) + answers
# All are run one after the other, with the names left from those before.
if model.carry_out(text("demo.jobs") + jobs) != answers:
    raise SystemExit("a table is answered otherwise after those before it")
write("stdin", jobs)
write("stdout", answers)
print("%d jobs" % sum(prints(line) for line in jobs.split("\n")))
