#!/usr/bin/env python3
"""Which introductions get through address translators, by the plain program of replay.rs: a calls b, or each the other, for
each pair of the four kinds of translators that they are behind. Prints crates/examples/data/pairs.rows, or with --table
the table of docs/PROTOCOL.md.

Datagrams are carried in the order in which they were sent until a session opens. Where none is on its way the moment goes
on and both ends do what is due, until the attempts expire. rustc must be on the path.
"""
import os
import re
import subprocess
import sys
import tempfile

HERE = os.path.dirname(os.path.abspath(__file__))
RULES = {"i": "independent", "d": "dependent"}
KINDS = ["ii", "id", "di", "dd"]
PLACE = "10.0.0.9:1935"
# Each way with whether i redirects, and the calls.
WAYS = {
    "one-call-forwarded": (False, ["a b"]),
    "one-call-redirected": (True, ["a b"]),
    "two-calls-forwarded": (False, ["a b", "b a"]),
    "two-calls-redirected": (True, ["a b", "b a"]),
}
EXPIRED = 95_000
HEAD = """# Introductions through each pair of translators: a is behind `s..`, b behind `t..`, of which the first letter
# is that of the mapping and the second that of the filter, independent or dependent. Both have met i, which
# forwards hellos, and where a title says redirected has a row for each of their places. Where each calls the
# other, b prevails.
#
# Datagrams are carried in the order in which they were sent, those that are lost as well, up to the one by
# which a session opens. Where none opens, they are up to the first repeats, and the attempts expire.
#
# A row begins with `@` and its title. Lines behind `>` are its script. `...` stands for what was reported so
# far; before the next line behind `>` stands what is reported then. `+ 13 all-kinds` stands for the first 13
# lines of that row. `7..10` in a word counts up, and its line stands once for each. scripts/baseline/pairs.py
# writes this file by a program written after docs/PROTOCOL.md.
@ all-kinds"""


def kinds():
    yield "end i 65536 4096 abcdbcdecdefdefgefghfghighijhijkijkljklmklmnlmnomnopnopq"
    yield "end a 65536 4096 The quick brown fox jumps over the lazy dog"
    yield "end b 65536 4096 The quick brown fox jumps over the lazy dog."
    yield "introduce i"
    yield f"place i {PLACE}"
    for at, name in enumerate("st", 1):
        for index, (mapping, filter) in enumerate(KINDS):
            yield f"translator {name}{mapping}{filter} {RULES[mapping]} {RULES[filter]} 10.{at}.0.{index} 40000"


class Run:
    """A script that is made step by step, by what it reports."""

    def __init__(self, program, lines):
        self.program, self.script, self.carried, self.moment = program, list(lines), 0, 0
        self.play()

    def play(self):
        text = "".join(line + "\n" for line in self.script)
        done = subprocess.run([self.program], input=text, capture_output=True, text=True, check=True)
        self.report = done.stdout.split("\n")[:-1]
        self.sent = sum(line.split(" ")[2] == "sent" for line in self.report)
        self.opened = [line.split(" ")[1] for line in self.report if re.search(r" opened peer=[ab] ", line)]

    def add(self, *lines):
        self.script += lines
        self.play()

    def carry(self):
        """All that is on its way, or up to what opens a session."""
        while self.carried < self.sent and not self.opened:
            self.carried += 1
            self.add(f"carry {self.carried}")

    def wait(self):
        self.moment += 1_000 if self.moment < 5_000 else 5_000
        self.add(f"at {self.moment}", "tick a", "tick b")


def run(program, way, one, other):
    redirects, calls = WAYS[way]
    made = Run(program, [*kinds(), f"place a 192.168.0.2:1935 s{one}", f"place b 192.168.0.3:1935 t{other}"])
    for name in "ab":
        made.add(f"open {name} i {PLACE}")
        made.carry()
    if redirects:
        made.add(*(f"redirect i {name} 10.{at}.0.{KINDS.index(kind)}:40000" for name, at, kind in (("a", 1, one), ("b", 2, other))))
    made.met, made.calls = made.carried, len(made.script)
    made.add(*(f"open {call} {PLACE}" for call in calls))
    made.carry()
    while not made.opened and made.moment < EXPIRED:
        made.wait()
        made.carry()
    made.count = made.carried - made.met
    return made


def shortened(made):
    """The lines of a script behind those of the kinds: what counts up put together, and moments at which nothing was due
    left out."""
    said, lines, moment = {int(line.split(" ")[0]) for line in made.report}, [], []
    for number, line in enumerate(made.script[13:], 14):
        words, before = line.split(" "), lines[-1].split(" ") if lines else [""]
        if words[0] == "at":
            moment = [line]
        elif words[0] == "tick":
            lines += [*moment, line] if number in said else []
            moment = moment if number not in said else []
        elif words[0] == before[0] == "carry":
            lines[-1] = f"carry {before[1].split('..')[0]}..{words[1]}"
        else:
            lines.append(line)
    return lines


def until_repeated(program, made):
    """The script of a run without a session, up to the first repeats."""
    return Run(program, made.script[: made.script.index("at 2000")])


def numbered(program, lines):
    """The report of a script whose lines may count up, by the numbers of its lines."""
    script = []
    for line in lines:
        first = re.match(r"carry (\d+)\.\.(\d+)$", line)
        script += [f"carry {n}" for n in range(int(first[1]), int(first[2]) + 1)] if first else [line]
    made = Run(program, [*kinds(), *script])
    return len(made.script), made


def row(program, title, made):
    """A row: its script up to its last step, and what that reports."""
    if made.opened:
        lines, last = shortened(made), []
        front, _, end = lines.pop().partition("..")
        if end:
            first = int(front.split(" ")[1])
            lines.append(front if first + 1 == int(end) else f"{front}..{int(end) - 1}")
            front = f"carry {end}"
        last = [front]
    else:
        calls = [line for line in made.script if re.match("open [ab] [ab]", line)]
        lines = shortened(until_repeated(program, made)) + [f"at {EXPIRED}"]
        last = [f"tick {line.split(' ')[1]}" for line in calls]
    text = [f"@ {title}", "+ 13 all-kinds", *(f"> {line}" for line in lines), "..."]
    for at, line in enumerate(last, 1):
        number, told = numbered(program, [*lines, *last[:at]])
        text += [f"> {line}", *(it for it in told.report if it.startswith(f"{number} "))]
    return "\n".join(text)


def told(made):
    return f"{made.opened[0]} {made.count}" if made.opened else "-"


def main():
    with tempfile.TemporaryDirectory() as folder:
        program = os.path.join(folder, "replay")
        subprocess.run(["rustc", "-O", "--edition", "2021", "-o", program, os.path.join(HERE, "replay.rs")], check=True)
        runs = {(way, one, other): run(program, way, one, other) for way in WAYS for one in KINDS for other in KINDS}
        if "--table" in sys.argv[1:]:
            for one in KINDS:
                print("|", one, "|", " | ".join(", ".join(told(runs[way, one, other]) for way in WAYS) for other in KINDS), "|")
            return
        print(HEAD)
        print("\n".join(f"> {line}" for line in kinds()))
        for (way, one, other), made in runs.items():
            print(row(program, f"{way}-{one}-to-{other}", made))


main()
