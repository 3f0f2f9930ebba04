"""What scripts/try-library tries of the crate in bindings/rust: that its declarations are those of
the header, and, where cargo and the library are there, that its own tests pass, and that the chats
in Rust and in Python understand each other.
"""
import os
import re
import shutil
import socket
import subprocess
import sys
import tempfile
import threading

TOP = os.path.dirname(os.path.dirname(os.path.dirname(os.path.abspath(__file__))))
CRATE = os.path.join(TOP, "bindings", "rust")
BASES = {
    "u8": "uint8_t", "u16": "uint16_t", "u32": "uint32_t", "u64": "uint64_t", "i32": "int32_t",
    "usize": "size_t", "c_void": "void", "": "void",
}
NAMED = {"u32::MAX": 2**32 - 1, "u64::MAX": 2**64 - 1, "UINT32_MAX": 2**32 - 1, "UINT64_MAX": 2**64 - 1}


def read(*path):
    with open(os.path.join(CRATE, *path), encoding="utf8") as f:
        return f.read()


def as_c(kind):
    """What C has for a type of Rust."""
    kind = kind or ""
    if pointer := re.fullmatch(r"\*(mut|const) (.*)", kind):
        there = as_c(pointer[2])
        return ("const " if pointer[1] == "const" else "") + (there if there.endswith("]") else f"{there} *")
    if array := re.fullmatch(r"\[(\w+); (\d+)\]", kind):
        return f"{BASES[array[1]]}[{array[2]}]"
    return BASES.get(kind, kind)


def number(text):
    return NAMED[text] if text in NAMED else int(text.replace("_", ""), 0)


def words_of(name):
    """UnknownSession as UNKNOWN_SESSION."""
    return "_".join(it.upper() for it in re.findall(r"[A-Z][a-z]*", name))


def compare_calls(expect, calls, source):
    declared = {}
    form = r"^    pub fn (\w+)\(([^)]*)\)(?: -> (\w+))?;$"
    for name, given, result in re.findall(form, source, flags=re.M):
        kinds = re.findall(r"\w+: ([^;,\]]+(?:; \d+\])?)", given)
        declared[name] = (as_c(result), [as_c(it) for it in kinds])
    others = sorted(declared.keys() ^ calls.keys())
    expect(not others, f"the crate has other calls: {others}")
    for name in declared.keys() & calls.keys():
        text = f"{name}: the crate has {declared[name]}, the header {calls[name]}"
        expect(declared[name] == calls[name], text)


def compare_structs(expect, header, source):
    there = dict(re.findall(r"typedef struct (rtmfp_\w+) \{(.*?)\}", header, flags=re.S))
    form = r"#\[repr\(C\)\](?:\s*#\[[^\n]*)*\s*pub struct (rtmfp_\w+) \{(.*?)\n\}"
    here = dict(re.findall(form, source, flags=re.S))
    others = sorted(here.keys() ^ there.keys())
    expect(not others, f"the crate has other structs: {others}")
    for name in here.keys() & there.keys():
        fields = [(field, as_c(kind)) for field, kind in re.findall(r"pub (\w+): ([^,]+),", here[name])]
        wanted = re.findall(r"([\w ]+?[ *]+)(\w+)(\[\d+\])?;", there[name])
        wanted = [(field, kind.strip() + length) for kind, field, length in wanted]
        expect(fields == wanted, f"{name}: the crate has {fields}, the header {wanted}")


def in_header(header):
    """The numbers of the header, and the texts of its answers."""
    defined = re.findall(r"#define (RTMFP_\w+) (0x[0-9a-f]+|\d+|UINT\d+_MAX)u?\b", header)
    numbers = {name: number(it) for name, it in defined}
    answers = re.findall(r"X\((\w+), (-?\d+), \"(.*?)\"\)", header)
    marks = re.findall(r"X\((\w+), (\d+)\)", header)
    numbers.update({f"RTMFP_{name}": int(it) for name, it, *_ in [*answers, *marks]})
    texts = {f"RTMFP_{name}": text for name, _, text in answers}
    return numbers, texts, [name for name, _ in marks]


def compare_refusals(expect, texts):
    """The safe type of what calls are refused with."""
    form = r"^    (\w+) = (RTMFP_E_\w+), \"(.*)\";$"
    rows = re.findall(form, read("src", "refusal.rs"), flags=re.M)
    wanted = {name: it for name, it in texts.items() if name != "RTMFP_OK"}
    expect({name: text for _, name, text in rows} == wanted, "other refusals")
    expect(all(name == "RTMFP_E_" + words_of(it) for it, name, _ in rows), "a refusal's name differs")


def compare_entries(expect, marks, causes):
    """The safe types of entries, reasons and causes."""
    entries = read("src", "entry.rs")
    kinds = dict(re.findall(r"sys::RTMFP_(\w+) => \{?\s*Entry::(\w+)", entries))
    whys = dict(re.findall(r"(\w+) = sys::RTMFP_(WHY_\w+),", entries))
    expect(sorted([*kinds, *whys.values()]) == sorted(marks), "other entries or reasons")
    expect(all(words_of(it) == name for name, it in kinds.items()), "an entry's name differs")
    expect(all("WHY_" + words_of(it) == name for it, name in whys.items()), "a reason's name differs")
    rows = re.findall(r"^    (\w+) = (\d+), \"([\w-]+)\";$", entries, flags=re.M)
    expect([(it, text) for _, it, text in rows] == causes, "other causes")
    as_text = [words_of(it).lower().replace("_", "-") for it, _, _ in rows]
    expect(as_text == [text for _, _, text in rows], "a cause's name differs")


def compare_numbers(expect, header, source):
    """The numbers of `sys`, and what the safe types make of them."""
    wanted, texts, marks = in_header(header)
    rows = re.findall(r"^    (RTMFP_\w+) = ([\w:-]+), \"(.*)\";$", source, flags=re.M)
    here = {name: number(it) for name, it, _ in rows}
    expect(here == wanted, f"numbers: {sorted(here.items() ^ wanted.items())}")
    told = {name: text for name, _, text in rows if name in texts}
    expect(told == texts, "other texts of answers in sys.rs")
    compare_refusals(expect, texts)
    compare_entries(expect, marks, re.findall(r"X\((\d+), \"([\w-]+)\"\)", header))
    limits = {name for name in wanted if re.match("RTMFP_M(AX|IN)_", name)}
    named = re.findall(r"pub const (\w+): (?:usize|u16) = sys::(RTMFP_\w+);", read("src", "lib.rs"))
    expect({name for it, name in named if name == "RTMFP_" + it} == limits, "other limits")
    version = ".".join(str(wanted["RTMFP_VERSION"] >> shift & 255) for shift in (16, 8, 0))
    expect(f'\nversion = "{version}"\n' in read("Cargo.toml"), "the crate has another version")


def free_port():
    with socket.socket(type=socket.SOCK_DGRAM) as it:
        it.bind(("127.0.0.1", 0))
        return it.getsockname()[1]


def chats(room, library):
    """A chat in Rust and one in Python, which looks for the other."""
    secret, ports = os.path.join(room, "secret"), (free_port(), free_port())
    with open(secret, "wb") as f:
        f.write(os.urandom(32))
    rust = [os.path.join(room, "debug", "examples", "chat"), secret, "bob", f"127.0.0.1:{ports[0]}"]
    python = [sys.executable, os.path.join(TOP, "bindings", "python", "chat.py"), secret, "alice"]
    python += [str(ports[1]), "bob", "127.0.0.1", str(ports[0])]
    how = {"stdin": subprocess.PIPE, "stdout": subprocess.PIPE, "stderr": subprocess.STDOUT}
    how["env"] = dict(os.environ, LIBRTMFP=library, PYTHONDONTWRITEBYTECODE="1")
    return [subprocess.Popen(words, text=True, **how) for words in (rust, python)]


def try_chats(expect, room, library):
    """What is typed in the one chat, the other prints; and where input ends, both end."""
    ends = chats(room, library)
    limit = threading.Timer(60, lambda: [it.kill() for it in ends])
    limit.start()
    for end, text in zip(ends, ("out\nof Rust\n", "and back\n")):
        end.stdin.write(text)
        end.stdin.flush()
    # (that each has the other's lines is seen before the one closes the session)
    said = [ends[0].stdout.readline(), *(ends[1].stdout.readline() for _ in range(2))]
    said += [it.communicate()[0] for it in ends]
    limit.cancel()
    expect(said == ["and back\n", "out\n", "of Rust\n", "", ""], f"the chats say {said}")
    codes = [it.returncode for it in ends]
    expect(codes == [0, 0], f"the chats end with {codes}")


def build_and_test(expect, says, compare_places, library):
    """The crate's own tests; how many pass."""
    with tempfile.TemporaryDirectory() as room:
        folders = {"CARGO_TARGET_DIR": room, "RTMFP_LIBRARY_DIR": os.path.dirname(library)}
        how = {"cwd": CRATE, "env": dict(os.environ, **folders)}
        words = ["cargo", "test", "--quiet", "--offline", "--locked"]
        lines = says("cargo test", *words, **how)
        if lines is None:
            return 0
        places = says("places in Rust", *words, "--test", "places", "--", "--nocapture", **how)
        compare_places("Rust", places or [])
        try_chats(expect, room, library)
    return sum(int(it) for line in lines for it in re.findall(r"(\d+) passed", line))


def try_crate(expect, says, compare_places, header, calls, library):
    """Compares the crate with the header, whose functions `calls` has, and tests it over the
    library, if there is one. Gives what is to be told of it."""
    source = read("src", "sys.rs")
    compare_calls(expect, calls, source)
    compare_structs(expect, header, source)
    compare_numbers(expect, header, source)
    if not library or not shutil.which("cargo"):
        return "no tests in Rust, since there is no " + ("cargo" if library else "library")
    return f"{build_and_test(expect, says, compare_places, library)} tests in Rust"
