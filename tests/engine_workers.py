"""What processes do that share an engine by a folder: each until it is killed, or a call fails."""

import contextlib
import mmap
import os
import signal
import struct
import subprocess
import time

from engine_clients import built
from engines import client
from trial import Wrong, same, true

# Seconds within which a call ends: with what it is for, or with an error where the engine died.
SOON = 10
# A file's blocks are written by turns by so many writers, each of which has a count of what was told as synced. Two ranks are threads of a program in C, two are
# processes of their own.
WRITERS, C_RANKS, PYTHON_RANKS = 4, (0, 1), (2, 3)
# Two other numbers beside these counts: how many files a visitor wrote, and whether no further engine comes.
VISITOR, OVER = 4, 15
# Blocks below and above the length from which the client in C lends its pages.
LENGTHS = (1000, 9000, 47_008)


class Told:
    """Counts that a process which is killed leaves as they are."""

    def __init__(self, path):
        path.write_bytes(bytes(8 * 16))
        with open(path, "r+b") as file:
            self.path, self.counts = path, mmap.mmap(file.fileno(), 8 * 16)

    def __getitem__(self, rank):
        return struct.unpack_from("<Q", self.counts, 8 * rank)[0]

    def __setitem__(self, rank, count):
        struct.pack_into("<Q", self.counts, 8 * rank, count)


def block_of(place, length):
    return bytes([place % 255 + 1]) * length


def is_block(data, place, length):
    return data == block_of(place, length)


# ---- what processes do: each until it is killed, or a call fails


def writes(fs, told, name, length, rank):
    """Writes each fourth block, and syncs after each third."""
    out = fs.open(name, "wb")
    for k in range(10**6):
        place = WRITERS * k + rank
        out.pwrite(block_of(place, length), place * length)
        if k % 3 == 2:
            same("what is told as synced", out.sync(), k + 1)
            told[rank] = k + 1


def reads(fs, told, name, length):
    """Looks at all of the file again and again: what was told before a look is there, and no block is torn."""
    while not told[0] and not told[OVER]:
        time.sleep(0.001)
    with fs.open(name, "rb") as file:
        while True:
            before = [told[rank] for rank in range(WRITERS)]
            file.refresh()
            file.seek(0)
            stands(file.readall(), before, length)


def stands(whole, told, length):
    """All blocks that were told as synced are there, and each other one is whole, or zeros, or past the end."""
    for place in range(max(-(-len(whole) // length), *(WRITERS * (count - 1) + rank + 1 for rank, count in enumerate(told)))):
        got = whole[place * length : (place + 1) * length]
        is_told = place // WRITERS < told[place % WRITERS]
        true(f"block {place} of {len(whole)} bytes, of which {told} were told, is {got[:9]!r} ..", is_block(got, place, length) or not is_told and not any(got))


def comes_and_goes(mount, told, name):
    """Joins, writes a file of its own, gives it another name, changes its size, and leaves. The count is of the files that are so."""
    for k in range(10**6):
        with mount() as fs:
            with fs.open(f"{name}.new", "wb") as out:
                out.write(block_of(k, 500))
            fs.rename(f"{name}.new", f"{name}.{k}")
            told[VISITOR] = k + 1
            if k % 3 == 1:
                fs.flatten(f"{name}.{k}")
            if k % 3 == 2:
                fs.trunc(f"{name}.{k}", 100)
            true("the list", f"{name}.{k}" in fs.list())


@contextlib.contextmanager
def within(seconds, what):
    """What is done here ends within these seconds."""

    def late(*_):
        raise Wrong(f"{what} has not ended within {seconds} seconds")

    before = signal.signal(signal.SIGALRM, late)
    signal.setitimer(signal.ITIMER_REAL, seconds)
    try:
        yield
    finally:
        signal.setitimer(signal.ITIMER_REAL, 0)
        signal.signal(signal.SIGALRM, before)


class Process:
    """A child that does this, and ends with the error of the call that failed, or with 98 where something else went wrong."""

    def __init__(self, trial, does):
        self.ended, self.trouble = None, trial.folder / "trouble"
        self.number = os.fork()
        if not self.number:
            status = 98
            try:
                signal.signal(signal.SIGALRM, signal.SIG_DFL)
                does()
                status = 0
            except client(trial).Error as error:
                status = error.why
            except BaseException as error:
                self.trouble.write_text(f"{type(error).__name__}: {error}")
            finally:
                os._exit(status)

    def poll(self):
        if self.ended is None:
            number, status = os.waitpid(self.number, os.WNOHANG)
            if number:
                self.ended = os.waitstatus_to_exitcode(status)
        return self.ended

    def kill(self):
        if self.poll() is None:
            os.kill(self.number, signal.SIGKILL)
            _, status = os.waitpid(self.number, 0)
            self.ended = os.waitstatus_to_exitcode(status)

    def said(self):
        return self.trouble.read_text() if self.trouble.exists() else ""


def in_c(trial, door, told, name, length):
    """The two writers of a program in C."""
    words = [built(trial, trial.top / "clients" / "tests" / "writes.c"), told.path, name, length, WRITERS, *C_RANKS]
    return subprocess.Popen(list(map(str, words)), env={**os.environ, "PLFS_AT": str(door)}, stdin=subprocess.DEVNULL)


def mount_of(trial, door, told):
    """Joins, also where there is no engine yet, until there won't be one."""
    plfs_client = client(trial)
    while True:
        is_over = told[OVER]
        try:
            return plfs_client.Mount(at=door)
        except plfs_client.Error as error:
            if error.why != plfs_client.Why.NOT_STARTED or is_over:
                raise
        time.sleep(0.002)


def in_python(trial, door, told, name, length, rank):
    def does():
        with mount_of(trial, door, told) as fs:
            writes(fs, told, name, length, rank)

    return Process(trial, does)


def reader(trial, door, told, name, length):
    def does():
        with mount_of(trial, door, told) as fs:
            reads(fs, told, name, length)

    return Process(trial, does)


def visitor(trial, door, told, name):
    return Process(trial, lambda: comes_and_goes(lambda: mount_of(trial, door, told), told, name))


def ended_soon(processes, what):
    """The statuses with which these end, each by itself."""
    with within(SOON, what):
        while any(it.poll() is None for it in processes):
            time.sleep(0.002)
    return [it.poll() for it in processes]


def killed_all(processes):
    for it in processes:
        it.kill()
        if isinstance(it, subprocess.Popen):
            it.wait()
