"""What each check has at hand: a folder of its own with an empty ROOT, the program, the library that stands between it
and its calls on files, and words for what must hold."""

import os
import pathlib
import re
import resource
import shutil
import signal
import socket
import struct
import subprocess
from collections import namedtuple

# A run that has not ended by then has failed its check.
SECONDS = 20

CHECKS = []

Ended = namedtuple("Ended", "status out err")

# A call on a file as preload.c logs it: its kind, what it ended with (a number, or an error as EIO), its path, the second
# path of a rename, and the words of what else was asked for.
Call = namedtuple("Call", "kind end path other more")

# One actor writes and closes; another run reads it back.
WORK = "actor a\na open f\na write 0 text:hello\na sync\na close\n"
WORKED = "2 open 4294967297\n3 wrote 0 5 STAMP\n4 synced 1\n5 closed 1\n"
READ = "actor a\na ropen f\na read 0 64\n"


class Wrong(Exception):
    """What a check found is not what it wants."""


class Skipped(Exception):
    """The machine lacks what a check needs."""


def check(function):
    """Adds a function of one Trial to the checks. Its name says what it shows."""
    CHECKS.append(function)
    return function


def same(what, got, wanted):
    if got != wanted:
        raise Wrong(f"{what} is {got!r}, and not {wanted!r}")


def true(what, fact):
    if not fact:
        raise Wrong(what)


def connected():
    """The two ends of a connection to this machine: the one that sends, and the one that receives."""
    sender = socket.socket()
    with socket.socket() as server:
        server.bind(("127.0.0.1", 0))
        server.listen()
        sender.connect(server.getsockname())
        receiver, _ = server.accept()
    return sender, receiver


def reset(sender):
    """Resets the connection: with a linger of no time it isn't ended, and the other end's next read fails."""
    sender.setsockopt(socket.SOL_SOCKET, socket.SO_LINGER, struct.pack("ii", 1, 0))
    sender.close()


def masked(text):
    """The text with STAMP for each stamp: no other number that is printed has 19 digits."""
    return re.sub(r"\b[1-9]\d{18}\b", "STAMP", text)


def listed(folder):
    """All paths below a folder, each with its bytes, or with None where it is no plain file."""
    found = {}
    for at, folders, files in os.walk(folder):
        for name in folders + files:
            path = pathlib.Path(at, name)
            is_plain = path.is_file() and not path.is_symlink()
            found[str(path.relative_to(folder))] = path.read_bytes() if is_plain else None
    return found


class Trial:
    """One check's folder, its empty ROOT in it, the program, the library of preload.c, a source of random numbers, and how many kills are
    asked for, if that is said. A check that passes may leave a note, which is printed with its line."""

    def __init__(self, program, library, top, folder, random, kills=None):
        self.program = str(program)
        self.library = library
        self.top = pathlib.Path(top)
        self.folder = pathlib.Path(folder)
        self.root = self.folder / "root"
        self.random = random
        self.kills = kills
        self.note = ""
        self.scripts = 0
        self.root.mkdir()

    def start(self, script, root=None, words=("play",), closed=(), limits=(), called=None, **how):
        """Starts the program on a script, with these descriptors closed and these limits of the system set, under another
        name where one is said. Each script is a file of its own: a program that was started before may not have read its
        own to the end."""
        self.scripts += 1
        place = self.folder / f"script{self.scripts}"
        place.write_text(script)

        def before():
            for limit, most in limits:
                limit(most)
            for number in closed:
                os.close(number)

        how = {"stdout": subprocess.PIPE, "stderr": subprocess.PIPE, "cwd": self.folder, **how}
        how.setdefault("env", {"PATH": os.environ.get("PATH", "/usr/bin:/bin"), "LANG": "C.UTF-8"})
        for number, stream in enumerate(("stdin", "stdout", "stderr")):
            if number in closed:
                how[stream] = None
        with open(place, "rb") as script_file:
            how.setdefault("stdin", script_file)
            words = [called or self.program, self.root if root is None else root, *words]
            return subprocess.Popen(words, executable=self.program, preexec_fn=before, **how)

    def run(self, script, root=None, **how):
        """Runs the program on a script to its end: its status, and what it printed."""
        started = self.start(script, root, **how)
        try:
            out, err = started.communicate(timeout=SECONDS)
        except subprocess.TimeoutExpired:
            started.kill()
            started.communicate()
            raise Wrong(f"the program had not ended after {SECONDS} seconds")
        text = [(it or b"").decode("utf-8", "backslashreplace") for it in (out, err)]
        return Ended(started.returncode, masked(text[0]), text[1])

    def watch(self, rules=(), name="calls"):
        """What `start` and `run` are given for a run whose calls on files follow these rules of preload.c and are logged."""
        self.library.is_there()
        log, file = self.folder / f"{name}.log", self.folder / f"{name}.rules"
        log.unlink(missing_ok=True)
        file.write_text("\n".join([f"log {log}", *rules, ""]))
        path = os.environ.get("PATH", "/usr/bin:/bin")
        return {"env": {"PATH": path, "LANG": "C.UTF-8", "LD_PRELOAD": self.library.path, "PRELOAD_RULES": str(file)}}

    def calls(self, name="calls"):
        """The calls of the last run that was watched under this name."""
        lines = (self.folder / f"{name}.log").read_text("utf-8", "surrogateescape").splitlines()
        return [Call(kind, int(end) if end.isdigit() else end, path, other, more.split())
                for kind, end, path, other, more in (line.split("\t") for line in lines)]

    def watched(self, script, *rules, **how):
        """A run whose calls follow these rules: how it ended, and its calls."""
        ended = self.run(script, **self.watch(rules), **how)
        return ended, self.calls()

    def ends(self, wanted, script, root=None, **how):
        """Runs a script, which must end with this status and, where lines are given, print them; the end is returned."""
        lines = how.pop("lines", None)
        ended = self.run(script, root, **how)
        said = f"the status ({ended.out[-200:]!r}, {ended.err[-200:]!r})"
        same(said, ended.status, wanted)
        if lines is not None:
            same("standard output", ended.out, lines)
        if wanted == 0:
            same("standard error", ended.err, "")
        return ended

    def holds(self, content=b"hello", root=None):
        """A run of its own must read this content of the file `f` back."""
        shown = content.hex() or "-"
        ended = self.ends(0, READ, root)
        same("what is read back", ended.out.splitlines()[1:], [f"3 read 0 {shown}"])

    def deep(self, length):
        """A new and empty folder, whose path has just so many bytes."""
        path = str(self.folder / f"deep{length}")
        while len(path) < length:
            left = length - len(path) - 1
            path += "/" + "d" * (left if left <= 200 else min(200, left - 2))
        os.makedirs(path)
        same("the length of a path", len(path), length)
        return path

    def is_untouched(self):
        same("what lies in ROOT", listed(self.root), {})


class Library:
    """The library of preload.c, built into a folder, or why it isn't there."""

    def __init__(self, source, folder):
        self.path, self.lacks = str(pathlib.Path(folder, "preload.so")), ""
        words = ["cc", "-std=c11", "-D_GNU_SOURCE", "-O1", "-Wall", "-Wextra", "-Werror", "-shared", "-fPIC", "-pthread", "-o", self.path, source]
        if not shutil.which("cc"):
            self.lacks = "no compiler"
            return
        built = subprocess.run(words, stdout=subprocess.PIPE, stderr=subprocess.STDOUT, text=True)
        if built.returncode:
            self.lacks = f"cc does not build {source}: {built.stdout}"

    def is_there(self):
        if self.lacks:
            raise Wrong(self.lacks)


def ignore(number):
    """A limit for `start`: this signal is ignored."""
    signal.signal(number, signal.SIG_IGN)


def size_limit(most):
    """A limit for `start`: no file gets longer than so many bytes."""
    resource.setrlimit(resource.RLIMIT_FSIZE, (most, most))


def process_limit(most):
    """A limit for `start`: its user has no more than so many processes and threads."""
    resource.setrlimit(resource.RLIMIT_NPROC, (most, most))
