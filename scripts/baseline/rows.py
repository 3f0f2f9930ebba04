#!/usr/bin/env python3
"""Plays rows of scripts, as crates/examples plays them, by the plain program of replay.rs, and tells the first line of each
whose report isn't so.

Use: scripts/baseline/rows.py [FILE..]   without a FILE all `*.rows` of crates/examples/data. rustc must be on the path.
"""
import glob
import os
import re
import subprocess
import sys
import tempfile

HERE = os.path.dirname(os.path.abspath(__file__))
DATA = os.path.join(HERE, "..", "..", "crates", "examples", "data")
RANGE = re.compile(r"(.*?)(\d+)\.\.(\d+)$")


def lines_of(line):
    """The lines that a line stands for."""
    words = line.split(" ")
    ranges = [match for match in map(RANGE.match, words) if match and (not match[1] or match[1][-1] in "=.")]
    times = [int(word[1:]) for word in words if re.match(r"x\d+$", word)]
    count = times[0] if times else int(ranges[0][3]) - int(ranges[0][2]) + 1 if ranges else 1
    for index in range(count):
        yield " ".join(counted(word, index) for word in words if not word.startswith("x"))


def counted(word, index):
    match = RANGE.match(word)
    return f"{match[1]}{int(match[2]) + index}" if match and (not match[1] or match[1][-1] in "=.") else word


def rows_in(text):
    for row in text.split("\n@ ")[1:]:
        title, _, lines = row.partition("\n")
        yield title, lines.split("\n")


def whole(rows, title):
    """The steps of a row and its report, with those of the rows that it begins with."""
    for line in rows[title]:
        if line.startswith("+ "):
            count, _, name = line[2:].partition(" ")
            steps = 0
            for kind, text in whole(rows, name):
                steps += kind == ">"
                if steps > int(count):
                    break
                yield kind, text
    for line in rows[title]:
        if line and line[0] not in "#+":
            kind = line[0] if line[:2] in ("> ", "! ") else ""
            for text in lines_of(line[2:] if kind else line):
                yield kind, text


def message(line):
    front, star, length = line.rpartition(" *")
    return front + " " + bytes(i % 251 for i in range(int(length))).hex() if star else line


def ran(program, script):
    return subprocess.run([program], input="".join(line + "\n" for line in script), capture_output=True, text=True)


def fault(program, rows, title):
    """The first thing that isn't so."""
    script, report, is_whole = [], [], True
    for kind, text in whole(rows, title):
        if kind == "!":
            done = ran(program, script + [text])
            if done.returncode != 3 or f" line {len(script) + 1}\n" not in done.stderr or done.stdout.split("\n")[:-1] != report:
                return f"{text}: {done.returncode} {done.stderr.strip()}"
        elif text == "...":
            report, is_whole = [], False
        elif kind:
            script.append(text)
        else:
            report.append(message(text))
    done = ran(program, script)
    if done.returncode:
        return done.stderr.strip()
    written = done.stdout.split("\n")[:-1]
    written = written if is_whole else written[len(written) - len(report) :]
    for is_so, wanted in zip(written + ["nothing"] * len(report), report + ["nothing"] * len(written)):
        if is_so != wanted:
            return f"wrote {is_so[:200]}, not {wanted[:200]}"
    return None


def main():
    files = sys.argv[1:] or sorted(glob.glob(os.path.join(DATA, "*.rows")))
    wrong = False
    with tempfile.TemporaryDirectory() as folder:
        program = os.path.join(folder, "replay")
        subprocess.run(["rustc", "-O", "--edition", "2021", "-o", program, os.path.join(HERE, "replay.rs")], check=True)
        for path in files:
            with open(path, encoding="utf8") as f:
                rows = dict(rows_in(f.read()))
            for title in rows:
                found = fault(program, rows, title)
                if found:
                    wrong = True
                    print(f"{os.path.basename(path)}: {title}: {found}")
    return 1 if wrong else 0


if __name__ == "__main__":
    sys.exit(main())
