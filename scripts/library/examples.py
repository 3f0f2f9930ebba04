"""Tries the examples in C, for scripts/try-library: each compiler that is there builds them with all warnings as errors, and
their programs speak with each other, through a relay that loses datagrams, and with a node of `rtmfp serve`."""
import contextlib
import filecmp
import os
import random
import secrets
import shutil
import socket
import subprocess
import time

from relay import Relay

TOP = os.path.dirname(os.path.dirname(os.path.dirname(os.path.abspath(__file__))))
SOURCES = os.path.join(TOP, "examples", "c")
PROGRAMS = ("hello", "rtmfp-pipe", "rtmfp-introducer")
# What looks at a program while it runs, where it is there.
CHECKER = ["valgrind", "-q", "--error-exitcode=9", "--leak-check=full"] if shutil.which("valgrind") else []
LINES = {"alice": "a line\n\nof Alice's\n", "bob": "one of Bob's\n" * 500}
LONGEST = 300
MEGABYTE = 1 << 20


def free_ports(count):
    """UDP ports of loopback that nobody has."""
    taken = [socket.socket(socket.AF_INET, socket.SOCK_DGRAM) for _ in range(count)]
    for it in taken:
        it.bind(("127.0.0.1", 0))
    ports = [it.getsockname()[1] for it in taken]
    for it in taken:
        it.close()
    return ports


def node_program():
    """The program that ./rtmfp runs, if it is built."""
    names = (os.path.join(TOP, "crates/rtmfp/out", name) for name in ("rtmfp", "rtmfp-unproved"))
    return next((name for name in names if os.path.exists(name)), None)


class Tries:
    """The tries of one build, in a folder of their own."""

    def __init__(self, expect, room, folder):
        self.expect, self.room, self.folder = expect, room, folder
        self.group, self.running = secrets.token_hex(32), []

    def path(self, name):
        return os.path.join(self.room, name)

    def write(self, name, data, mode=0o600):
        with open(self.path(name), "wb") as f:
            f.write(data if isinstance(data, bytes) else data.encode())
        os.chmod(self.path(name), mode)
        return self.path(name)

    def read(self, name):
        with open(self.path(name), encoding="utf8", errors="replace") as f:
            return f.read()

    def setup(self, name, port, *lines):
        """A setup file of this group."""
        text = "\n".join([f"group {self.group}", f"name {name}", f"address 127.0.0.1:{port}", *lines, ""])
        return self.write(f"{name}.setup", text)

    def start(self, name, program, *words, said="", before=()):
        """Starts a program, which reads what is said and writes to NAME.out and NAME.err."""
        self.write(f"{name}.in", said)
        words = [*before, os.path.join(self.folder, program), *words]
        with contextlib.ExitStack() as files:
            kinds = {"stdin": ("in", "rb"), "stdout": ("out", "wb"), "stderr": ("err", "wb")}
            how = {stream: files.enter_context(open(self.path(f"{name}.{kind}"), mode)) for stream, (kind, mode) in kinds.items()}
            self.running.append(subprocess.Popen(words, cwd=self.room, **how))
        return self.running[-1]

    def ends(self, title, child, status=0, name=None):
        """That a program ends so."""
        try:
            found = child.wait(timeout=LONGEST)
        except subprocess.TimeoutExpired:
            found = "no end"
        told = self.read(f"{name}.err") if name else ""
        self.expect(found == status, f"{title}: {found} in place of {status}, {told}")

    def waits_for(self, name, text):
        """Waits until there is this text in a file."""
        end = time.monotonic() + LONGEST
        while time.monotonic() < end:
            if os.path.exists(self.path(name)) and text in self.read(name):
                return
            time.sleep(0.02)
        self.expect(False, f"{name} has no {text}")

    def stop_all(self):
        for child in self.running:
            if child.poll() is None:
                child.kill()
            child.wait()


# ---- what is tried


def speak(tries, title, alice, bob, before=()):
    """Two pipes with these setups say their lines to each other, and end."""
    two = {}
    for name, setup in ("bob", bob), ("alice", alice):
        two[name] = tries.start(name, "rtmfp-pipe", setup, said=LINES[name], before=before)
    for name, child in two.items():
        tries.ends(f"{title}, {name}", child, 0, name)
    for name, other in (("alice", "bob"), ("bob", "alice")):
        tries.expect(tries.read(f"{name}.out") == LINES[other], f"{title}: {name} has other lines than {other}'s")


def try_hello(tries):
    port, other = map(str, free_ports(2))
    tries.write("group.secret", secrets.token_bytes(32))
    for before in [], CHECKER:
        bob = tries.start("bob", "hello", "bob", port, before=before)
        alice = tries.start("alice", "hello", "alice", other, "bob", port, "hello, Bob", before=before)
        tries.ends("hello, alice", alice, 0, "alice")
        tries.ends("hello, bob", bob, 0, "bob")
        tries.expect(tries.read("bob.out") == "hello, Bob\n", "hello: another line")
    tries.ends("hello without words", tries.start("none", "hello"), 2)


def try_lines(tries):
    port, other = free_ports(2)
    alice = tries.setup("alice", other, f"call bob 127.0.0.1:{port}")
    speak(tries, "lines", alice, tries.setup("bob", port))
    alice = tries.setup("alice", other, f"call bob 127.0.0.1:{port}")
    speak(tries, "both call", alice, tries.setup("bob", port, f"call alice 127.0.0.1:{other}"))
    speak(tries, "lines, checked", alice, tries.setup("bob", port), before=CHECKER)


def try_ipv6(tries):
    """An end of IPv6, which takes one of IPv4 as such, where the machine has IPv6."""
    try:
        with socket.socket(socket.AF_INET6, socket.SOCK_DGRAM) as it:
            it.bind(("::", 0))
    except OSError:
        return
    port, other = free_ports(2)
    alice = tries.setup("alice", other, f"call bob 127.0.0.1:{port}")
    bob = tries.write("bob.setup", f"group {tries.group}\nname bob\naddress [::]:{port}\n")
    speak(tries, "IPv6", alice, bob)


def send_file(tries, title, alice, bob, size, before=()):
    """A file from one pipe to another, which has it whole."""
    sent = tries.write("sent", random.Random(size).randbytes(size))
    one = tries.start("bob", "rtmfp-pipe", bob, "--out", "taken", before=before)
    other = tries.start("alice", "rtmfp-pipe", alice, "--file", sent, before=before)
    tries.ends(f"{title}, sent", other, 0, "alice")
    tries.ends(f"{title}, taken", one, 0, "bob")
    is_there = os.path.exists(tries.path("taken"))
    tries.expect(is_there and filecmp.cmp(sent, tries.path("taken"), shallow=False), f"{title}: another file")
    tries.expect(not os.path.exists(tries.path("taken.part")), f"{title}: a part is left")
    if is_there:
        os.remove(tries.path("taken"))


def try_files(tries):
    port, other = free_ports(2)
    alice, bob = tries.setup("alice", other, f"call bob 127.0.0.1:{port}"), tries.setup("bob", port)
    for size in (0, 1, 8 * MEGABYTE):
        send_file(tries, f"a file of {size}", alice, bob, size)
    send_file(tries, "a file, checked", alice, bob, 100_000, before=CHECKER)


def try_introducer(tries):
    """Two pipes through an introducer, with a relay between all three."""
    inn, bob, alice = ports = free_ports(3)
    with Relay(ports) as relay:
        host = tries.start("inn", "rtmfp-introducer", tries.setup("inn", inn), before=CHECKER)
        called = tries.setup("bob", bob, "card bob.card", f"meet inn {relay.places[inn]}")
        caller = tries.setup("alice", alice, f"call @bob.card {relay.places[inn]}")
        speak(tries, "by an introducer", caller, called)
        os.remove(tries.path("bob.card"))
        send_file(tries, "a file by an introducer", caller, called, 300_000)
    tries.expect(f"is at {relay.places[bob]}" in tries.read("inn.err"), "the introducer saw Bob elsewhere")
    host.terminate()
    tries.ends("the introducer", host, 0, "inn")


def try_again(tries):
    """A pipe whose session ends calls again, and its file goes over from the beginning."""
    port, other = free_ports(2)
    alice, bob = tries.setup("alice", other, f"call bob 127.0.0.1:{port}"), tries.setup("bob", port)
    sent = tries.write("sent", random.Random(2).randbytes(16 * MEGABYTE))
    first = tries.start("first", "rtmfp-pipe", bob, "--out", "taken")
    caller = tries.start("alice", "rtmfp-pipe", alice, "--file", sent)
    tries.waits_for("first.err", "a session with")
    first.terminate()
    tries.ends("one that is stopped", first, 1, "first")
    tries.expect(not os.path.exists(tries.path("taken")), "a file that isn't whole has its name")
    second = tries.start("bob", "rtmfp-pipe", bob, "--out", "taken")
    tries.ends("the one after it", second, 0, "bob")
    tries.ends("who calls again", caller, 0, "alice")
    tries.expect(filecmp.cmp(sent, tries.path("taken"), shallow=False), "another file, the second time")


def try_a_node(tries):
    """A pipe and a node of `rtmfp serve`: each calls the other, and says something."""
    port, other = free_ports(2)
    words = [node_program(), "serve", f"127.0.0.1:{port}", tries.group, "node", "--turns", "400"]
    words += ["--send", b"from the node".hex(), f"n:{b'pipe'.hex()}@127.0.0.1:{other}"]
    found = tries.setup("pipe", other)
    pipe = tries.start("pipe", "rtmfp-pipe", found)
    tries.waits_for("pipe.err", "pipe is")
    with open(tries.path("node.out"), "wb") as out:
        tries.running.append(subprocess.Popen(words, stdout=out, stdin=subprocess.DEVNULL))
    tries.waits_for("pipe.out", "from the node\n")
    pipe.terminate()
    tries.ends("a pipe that a node called", pipe, 1, "pipe")
    calls = tries.setup("caller", other, f"call node 127.0.0.1:{port}")
    caller = tries.start("caller", "rtmfp-pipe", calls, said="to the node\n")
    tries.waits_for("node.out", b"to the node".hex())
    caller.terminate()
    tries.ends("a pipe that called a node", caller, 1, "caller")
    tries.expect("1 lines may not have arrived" in tries.read("caller.err"), "a node tells that it has a line")
    told = [line for line in tries.read("node.out").splitlines() if " handed " in line]
    tries.expect(any(b"to the node".hex() in line for line in told), f"the node tells {told}")


def bad_words(tries, port):
    """Words, with what is told of them; all end with 2."""
    good = tries.setup("good", port)
    digits = f"group {tries.group}\n"
    here = f"name x\naddress 127.0.0.1:{port}\n"
    usage = "use it as"
    rows = [((), usage), (("--file",), usage), ((good, "--out"), usage), ((good, "more"), usage), ((good, "-x"), usage)]
    rows += [((good, "--file", "none"), "none: No such file"), ((good, "--file", "."), "is no file")]
    rows += [(("none",), "none: No such file"), ((".",), "is no file")]
    rows.append(((tries.write("open", digits + here, 0o640),), "chmod 600"))
    texts = {
        here: "lacks", digits: "lacks", "group 00\n": ":1: one secret", digits * 2: ":2: one secret",
        "name\n": ":1: one word", "name a b\n": ":1: one word", f"name {'x' * 65}\n": ":1: one name",
        "name \u00e9\n": ":1: one name", here + "name y\n": ":3: one name",
        "call x\n": ":1: who is called", "call x 127.0.0.1\n": ":1: an address",
        "address 127.0.0.1:0\n": ":1: an address",
        "address 127.0.0.1:65536\n": ":1: an address", "address ::1:80\n": ":1: an address", "address [::1:80\n": ":1: an address",
        "address 256.0.0.1:80\n": ":1: an address", "# a comment\n\nturns 5\n": ":3: the words are",
        f"call x{' 10.0.0.1:1' * 17}\n": ":1: too many words", "call x 10.0.0.1:1\n" * 9: ":9: too many ends",
    }
    for number, (text, told) in enumerate(texts.items()):
        rows.append(((tries.write(f"bad{number}.setup", text),), told))
    return rows


def try_bad_words(tries):
    port, other = free_ports(2)
    for words, told in bad_words(tries, port):
        tries.ends(f"pipe {words}", tries.start("bad", "rtmfp-pipe", *words), 2)
        tries.expect(told in tries.read("bad.err"), f"pipe {words}: {tries.read('bad.err')}")
    calls = tries.setup("calls", port, f"call x 127.0.0.1:{other}")
    for words, told in ((), "use it as"), ((calls,), "calls nobody"):
        tries.ends(f"introducer {words}", tries.start("bad", "rtmfp-introducer", *words), 2)
        tries.expect(told in tries.read("bad.err"), f"introducer {words}: {tries.read('bad.err')}")
    with socket.socket(socket.AF_INET, socket.SOCK_DGRAM) as taken:
        taken.bind(("127.0.0.1", 0))
        setup = tries.setup("taken", taken.getsockname()[1])
        tries.ends("a port that is taken", tries.start("bad", "rtmfp-pipe", setup), 3)


def build(says, compiler, folder, library):
    """Whether a compiler builds all, by the Makefile, without a warning."""
    paths = {"PKG_CONFIG": f"PKG_CONFIG_PATH={library}/pkgconfig pkg-config", "OUT": folder, "CC": compiler}
    words = [f"{name}={value}" for name, value in paths.items()]
    return says(f"examples by {compiler}", "make", "-s", "-C", SOURCES, *words) is not None


def try_examples(expect, says, room, library):
    """Builds and tries all, and tells how many builds there were and what was left out."""
    tried = [try_hello, try_bad_words, try_lines, try_ipv6, try_files, try_again, try_introducer]
    count, lacks = 0, [] if node_program() else ["no program is built, so none was beside a node"]
    if not shutil.which("make") or not shutil.which("pkg-config"):
        return 0, ["no make or no pkg-config, so no examples"]
    for compiler in filter(shutil.which, ("gcc", "clang")):
        folder = os.path.join(room, f"examples-{compiler}")
        if not build(says, compiler, folder, library):
            continue
        count += 1
        for each in tried + ([try_a_node] if node_program() else []):
            here = os.path.join(folder, each.__name__)
            os.makedirs(here)
            tries = Tries(expect, here, folder)
            try:
                each(tries)
            finally:
                tries.stop_all()
    return count, lacks
