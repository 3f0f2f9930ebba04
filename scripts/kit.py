"""What scripts/build and scripts/build-library ask of the toolchain's kit: where it is, and a module of sources without a
proof.

The kit compiles sources without a proof in `rt try` alone, which runs what it made and keeps nothing. So this calls it in
a copy of the kit made of links, in which the compiler keeps the program's module and ends there; the kit's own compiler
then makes of it what is wanted. The module has the tests of `rt try` in it: an index out of range or a sum that wraps ends
the program.
"""
import os
import shutil
import subprocess
import sys

TOP = os.path.dirname(os.path.dirname(os.path.abspath(__file__)))
# Below this many bytes a module is a probe of `rt try` and not the program.
LEAST_MODULE = 100_000

KEEPING_COMPILER = """#!/bin/sh
# Keeps the program's module with the words with which it is to be compiled, and ends there.
for word in "$@"; do
  case $word in
    *.bc) if [ "$(wc -c <"$word")" -ge {least} ]; then
        cp "$word" '{room}/module.bc' && printf '%s\\n' "$@" >'{room}/words'
        exit 1
      fi ;;
  esac
done
exec '{kit}/toolchain/bin/clang' "$@"
"""


class Failed(Exception):
    pass


def crates_of(root):
    """The crates that one is made of, each with those of the repository that it stands on, lowest first."""
    with open(os.path.join(TOP, "crates.txt"), encoding="utf8") as f:
        lines = [line.split("#")[0].strip() for line in f]
    below = {name.split()[0]: deps.split() for name, deps in (line.split(":", 1) for line in lines if line)}
    found = {}

    def add(name):
        if name in below and name not in found:
            for it in below[name]:
                add(it)
            found[name] = [it for it in below[name] if it in below]

    add(root)
    return found


def kit_of(asking):
    """The folder of the kit."""
    rt = shutil.which("rt") or sys.exit(f"{asking}: there is no rt on the path")
    return os.path.dirname(os.path.dirname(os.path.realpath(rt)))


def last_lines(path):
    """The end of a log."""
    with open(path, encoding="utf8", errors="replace") as f:
        return "".join(f.readlines()[-20:])


def linked_kit(kit, room):
    """A copy of the kit made of links, whose command is its own and whose compiler keeps the module."""
    copy = os.path.join(room, "kit")
    for folder in ("", "bin", "toolchain", "toolchain/bin"):
        os.makedirs(os.path.join(copy, folder), exist_ok=True)
        for name in os.listdir(os.path.join(kit, folder)):
            one, other = os.path.join(kit, folder, name), os.path.join(copy, folder, name)
            if name.startswith("rt") and folder == "bin" and os.path.isfile(one):
                shutil.copy(one, other)
            elif os.path.join(folder, name) not in ("bin", "toolchain", "toolchain/bin", "toolchain/bin/clang"):
                os.symlink(one, other)
    compiler = os.path.join(copy, "toolchain/bin/clang")
    with open(compiler, "w") as f:
        f.write(KEEPING_COMPILER.format(least=LEAST_MODULE, room=room, kit=kit))
    os.chmod(compiler, 0o755)
    return os.path.join(copy, "bin", "rt")


def keep_module(kit, home, room, log):
    """Keeps the module of a crate's program in the room, as module.bc."""
    how = {"stdin": subprocess.DEVNULL, "stdout": log, "stderr": log}
    subprocess.run([linked_kit(kit, room), "try", "--", "show"], cwd=home, **how)
    if not os.path.exists(os.path.join(room, "words")):
        raise Failed("the sources can't be compiled")


def compiler_words(kit, room, others):
    """The words of the kit's compiler for the module: those with which `rt try` called it, of which some are others, and
    without the sanitizer."""
    with open(os.path.join(room, "words")) as f:
        words = [w for w in f.read().split("\n") if w and not w.startswith(("-fsanitize", "--sysroot"))]
    return [f"{kit}/toolchain/bin/clang", f"--sysroot={kit}/toolchain", *(others.get(w, w) for w in words)]


def run_tool(words, room, log):
    """Runs a tool of the kit in the room."""
    if subprocess.run(words, cwd=room, stdin=subprocess.DEVNULL, stdout=log, stderr=log).returncode:
        raise Failed("the sources can't be compiled")
