"""An engine that several processes share by a folder: what they see of each other, and what holds where one of them, or the engine, is killed."""

import contextlib
import os
import shutil
import signal
import subprocess
import sys
import threading
import time

import engine_model as model
from engine_clients import built, example, has_no_dead
from engine_model import HEAD
from engines import client, engine, plfs
from trial import SECONDS, check, same, true

PLACES, HANDLES = 16, 15
# One of four processes that write a file by turns. After each eighth block it tells how many of its blocks are synced.
WRITES = """
import sys, plfs
rank, each, size = map(int, sys.argv[1:])
with plfs.Mount() as fs, fs.open("step", "wb") as out:
    for k in range(each):
        place = 4 * k + rank
        out.pwrite(bytes([place % 255 + 1]) * size, place * size)
        if k % 8 == 7:
            out.sync()
            print(k + 1, flush=True)
"""
# A process of four threads, each with a writer of its own. With four others they write each eighth block.
WRITES_BY_THREADS = """
import sys, threading, plfs
each, size = map(int, sys.argv[1:])
def write(rank):
    with fs.open("step", "wb") as out:
        for k in range(each):
            place = 8 * k + rank
            out.pwrite(bytes([place % 255 + 1]) * size, place * size)
            if k % 8 == 7:
                out.sync()
                print(rank, k + 1, flush=True)
with plfs.Mount() as fs:
    threads = [threading.Thread(target=write, args=(rank,)) for rank in range(4)]
    for it in threads: it.start()
    for it in threads: it.join()
"""
# One of the four others.
WRITES_BESIDE = WRITES.replace("4 * k", "8 * k").replace("print(k", "print(rank, k")
# A process that reads: for each line, with how many blocks of each writer were told as synced, it looks at all of the file.
READS = """
import sys, plfs
size = int(sys.argv[1])
with plfs.Mount() as fs, fs.open("step", "rb") as file:
    for line in sys.stdin:
        told = list(map(int, line.split()))
        file.refresh()
        file.seek(0)
        whole = file.readall()
        blocks = [whole[at : at + size] for at in range(0, len(whole), size)]
        right = lambda place: blocks[place] == bytes([place % 255 + 1]) * size
        lost = [place for rank, count in enumerate(told) for place in range(rank, 8 * count, 8) if place >= len(blocks) or not right(place)]
        torn = [place for place, block in enumerate(blocks) if any(block) and not right(place)]
        print(sum(map(any, blocks)), lost, torn, flush=True)
"""
# A process that writes until it is killed, and tells after each sync how many blocks there are.
WRITES_ON = """
import plfs
fs = plfs.Mount()
out, block = fs.open("f", "wb"), bytes(range(1, 251)) * 4000
for k in range(10**6):
    out.pwrite(block, k * len(block))
    if k % 3 == 2:
        out.sync()
        print(k + 1, flush=True)
"""
BLOCK = bytes(range(1, 251)) * 4000


def end(door):
    """Tells the engine of this folder that no further process comes."""
    join = os.open(door / "join", os.O_WRONLY | os.O_NONBLOCK)
    os.write(join, b"end\n")
    os.close(join)


def started(trial, door, root=None):
    return subprocess.Popen([engine(trial), str(root or trial.root), "--at", str(door)], stdin=subprocess.DEVNULL, stdout=subprocess.PIPE, stderr=subprocess.PIPE)


@contextlib.contextmanager
def served(trial):
    """A folder by which an engine serves. At the end it is told so, and ends with 0 once all have left."""
    door = trial.folder / "door"
    door.mkdir(exist_ok=True)
    if not (door / "join").exists():
        os.mkfifo(door / "join")
    serving = started(trial, door)
    try:
        joined(trial, door).close()
        yield door, serving
        if serving.poll() is None:
            end(door)
            out, _ = serving.communicate(timeout=SECONDS)
            same("how the engine ends", (serving.returncode, out), (0, b""))
        same("what is left in the folder", sorted(it.name for it in door.iterdir()), ["join"])
    finally:
        serving.kill()
        serving.communicate()


def joined(trial, door):
    """A mount that joins the engine of this folder, as soon as there is one."""
    plfs_client = client(trial)
    for _ in range(200):
        try:
            return plfs_client.Mount(at=door)
        except plfs_client.Error as error:
            if error.why != plfs_client.Why.NOT_STARTED:
                raise
        time.sleep(0.05)
    return plfs_client.Mount(at=door)


def process(trial, door, code, *words, **how):
    env = {**os.environ, "PLFS_AT": str(door), "PYTHONPATH": str(trial.top / "clients" / "python"), "PYTHONDONTWRITEBYTECODE": "1"}
    python = next(it for it in (sys.executable, "/usr/bin/python3") if os.access(it, os.X_OK))
    return subprocess.Popen([python, "-c", code, *map(str, words)], env=env, stdout=subprocess.PIPE, stderr=subprocess.PIPE, **how)


def why_of(trial, call):
    """Why the call failed, or None."""
    try:
        call()
    except client(trial).Error as error:
        return error.why
    return None


def eventually(what, holds):
    """Waits until it holds."""
    for _ in range(200):
        if holds():
            return
        time.sleep(0.05)
    true(what, False)


# ---- together


@check
def four_processes_write_one_checkpoint_that_another_reads_meanwhile(trial):
    each, size = 64, 5000
    block = lambda place: bytes([place % 255 + 1]) * size
    told = [0] * 4

    def hear(rank, out):
        for line in out:
            told[rank] = int(line)

    with served(trial) as (door, _):
        with joined(trial, door) as fs:
            fs.open("step", "wb").close()
            writers = [process(trial, door, WRITES, rank, each, size) for rank in range(4)]
            hearers = [threading.Thread(target=hear, args=(rank, it.stdout)) for rank, it in enumerate(writers)]
            for it in hearers:
                it.start()
            with fs.open("step", "rb") as file:
                looks = 0
                while looks < 3 or any(it.poll() is None for it in writers):
                    before = list(told)
                    file.refresh()
                    file.seek(0)
                    whole = file.readall()
                    for place in range(4 * each):
                        got = whole[place * size : (place + 1) * size]
                        is_told = place // 4 < before[place % 4]
                        true(f"block {place} is {got[:9]!r} ..", got == block(place) or not is_told and not any(got))
                    looks += 1
            for it in hearers:
                it.join()
            same("how the writers end", [(it.wait(), it.stderr.read()) for it in writers], [(0, b"")] * 4)
            same("what was told", told, [each] * 4)
    same("the file", plfs(trial, "cat", "step"), b"".join(map(block, range(4 * each))))
    has_no_dead(trial, "step")


@check
def four_threads_and_four_processes_write_one_checkpoint_that_another_process_reads_meanwhile(trial):
    each, size, told, seen = 64, 5000, [0] * 8, []

    def hear(out):
        for line in out:
            rank, count = map(int, line.split())
            told[rank] = count

    with served(trial) as (door, _):
        with joined(trial, door) as fs:
            fs.open("step", "wb").close()
        reader = process(trial, door, READS, size, stdin=subprocess.PIPE)
        writers = [process(trial, door, WRITES_BY_THREADS, each, size), *(process(trial, door, WRITES_BESIDE, rank, each, size) for rank in range(4, 8))]
        hearers = [threading.Thread(target=hear, args=(it.stdout,)) for it in writers]
        for it in hearers:
            it.start()
        while len(seen) < 3 or any(it.poll() is None for it in writers):
            reader.stdin.write(" ".join(map(str, told)).encode() + b"\n")
            reader.stdin.flush()
            count, _, faults = reader.stdout.readline().decode().partition(" ")
            same("blocks that are lost, and torn", faults, "[] []\n")
            seen.append(int(count))
        for it in hearers:
            it.join()
        same("how the writers end", [(it.wait(), it.stderr.read()) for it in writers], [(0, b"")] * 5)
        same("how the reader ends", (reader.communicate(timeout=SECONDS), reader.returncode), ((b"", b""), 0))
        same("what was told", told, [each] * 8)
    same("the file", plfs(trial, "cat", "step"), b"".join(bytes([place % 255 + 1]) * size for place in range(8 * each)))
    has_no_dead(trial, "step")
    trial.note = f"{len(seen)} looks, {len({it for it in seen if 0 < it < 8 * each})} of them in between"


@check
def programs_in_c_join_an_engine_by_the_environment(trial):
    program = built(trial, example(trial, "checkpoint.c"))
    with served(trial) as (door, _):
        runs = [subprocess.Popen([program, "nowhere", f"step{k}", "64", "5000"], env={**os.environ, "PLFS_AT": str(door)}, stdout=subprocess.PIPE, stderr=subprocess.PIPE) for k in range(3)]
        for k, run in enumerate(runs):
            out, err = run.communicate(timeout=SECONDS)
            same(f"how run {k} ends", (run.returncode, out, err), (0, f"step{k}: 64 blocks of 5000 bytes by 4 threads are as they were written\n".encode(), b""))
    same("the files", plfs(trial, "ls"), b"0 ls step0,step1,step2\n")


@check
def a_process_has_sixteen_actors_and_there_are_sixteen_places(trial):
    plfs_client = client(trial)
    why = plfs_client.Why
    with served(trial) as (door, _):
        mounts = [plfs_client.Mount(at=door) for _ in range(PLACES)]
        same("the next process", why_of(trial, lambda: plfs_client.Mount(at=door)), why.NO_HANDLE)
        files = [fs.open(f"f{k}", "wb") for k, fs in enumerate(mounts) for _ in range(HANDLES)]
        for k, fs in enumerate(mounts):
            same(f"one more handle of {k}", why_of(trial, lambda: fs.open("f", "wb")), why.NO_HANDLE)
            same(f"an actor that {k} hasn't", why_of(trial, lambda: fs.ask(model.OPEN, 16, payload=b"f")), why.BAD_NAME)
        for k, file in enumerate(files):
            file.pwrite(bytes([k % 251 + 1]), k // HANDLES * 100 + k % HANDLES)
        mounts.pop().close()
        with plfs_client.Mount(at=door) as fs:
            same("the last file's size", fs.stat(f"f{PLACES - 1}"), (PLACES - 1) * 100 + HANDLES)
            same("a file that is open", why_of(trial, lambda: fs.rename("f0", "g")), why.BUSY)
        for fs in mounts:
            fs.close()
    for k in range(PLACES):
        wanted = bytes(k * 100) + bytes((k * HANDLES + i) % 251 + 1 for i in range(HANDLES))
        same(f"f{k}", plfs(trial, "cat", f"f{k}"), wanted)
        has_no_dead(trial, f"f{k}")


@check
def an_engine_of_a_folder_ends_when_it_is_told_and_all_have_left(trial):
    plfs_client = client(trial)
    with served(trial) as (door, serving):
        with plfs_client.Mount(at=door) as fs:
            with fs.open("f", "wb") as out:
                end(door)
                eventually("a further process is let in", lambda: why_of(trial, lambda: plfs_client.Mount(at=door).close()) is not None)
                out.write(b"more")
                same("how it has ended", serving.poll(), None)
        same("how it ends", serving.wait(SECONDS), 0)
    same("the file", plfs(trial, "cat", "f"), b"more")
    same("without an engine", why_of(trial, lambda: plfs_client.Mount(at=door)), plfs_client.Why.NOT_STARTED)


def script(trial):
    """The root script, beside a program."""
    top = trial.folder / "copy"
    program = top / "crates" / "plfs" / "out" / "plfs"
    program.parent.mkdir(parents=True)
    shutil.copy(trial.top / "plfs", top)
    (top / "plfs_serve").symlink_to("plfs")
    (top / "crates.txt").write_text("")
    shutil.copy(trial.program, program)
    return top / "plfs_serve"


@check
def a_signal_to_the_group_of_the_root_script_ends_its_engine_once_all_have_left(trial):
    plfs_client = client(trial)
    door = trial.folder / "door"
    door.mkdir()
    words = [script(trial), str(trial.root), "--at", str(door)]
    serving = subprocess.Popen(words, stdin=subprocess.DEVNULL, stdout=subprocess.PIPE, stderr=subprocess.PIPE, start_new_session=True)
    try:
        with joined(trial, door) as fs, fs.open("f", "wb") as out:
            os.killpg(serving.pid, signal.SIGTERM)
            eventually("a further process is let in", lambda: why_of(trial, lambda: plfs_client.Mount(at=door).close()) is not None)
            out.write(b"more")
            same("how it has ended", serving.poll(), None)
        same("how it ends", serving.wait(SECONDS), 0)
        has_no_dead(trial, "f")
    finally:
        with contextlib.suppress(ProcessLookupError):
            os.killpg(serving.pid, signal.SIGKILL)
        serving.communicate()
    same("the file", plfs(trial, "cat", "f"), b"more")


@check
def a_folder_serves_one_engine_and_needs_its_pipe(trial):
    door, other = trial.folder / "door", trial.folder / "other"
    other.mkdir()
    with served(trial) as (door, _):
        second = started(trial, door, other)
        out, err = second.communicate(timeout=SECONDS)
        same("a second engine", (second.returncode, out, err), (4, b"0 fault\n", f"plfs: {door}: in use by another program\n".encode()))
    empty = trial.folder / "empty"
    empty.mkdir()
    third = started(trial, empty)
    _, err = third.communicate(timeout=SECONDS)
    same("without a pipe", (third.returncode, err.startswith(f"plfs: {empty}/join: open: ".encode())), (5, True))


# ---- stops and kills


@check
def a_process_that_is_killed_leaves_the_others_served(trial):
    kills = min(trial.kills or 5, 50)
    with served(trial) as (door, _):
        with joined(trial, door) as fs:
            for turn in range(kills):
                killed = process(trial, door, WRITES_ON)
                told = int(killed.stdout.readline())
                time.sleep(trial.random.random() * 0.1)
                killed.kill()
                told = int((killed.communicate()[0].split() or [told])[-1])
                with fs.open(f"own{turn}", "wb") as out:
                    out.write(b"own")
                eventually("its writer is closed", lambda: not why_of(trial, lambda: fs.rename("f", f"f{turn}")))
                with fs.open(f"f{turn}", "rb") as file:
                    true(f"{file.size} of {told}", file.size >= told * len(BLOCK))
                    for k in range(told):
                        true(f"block {k}", file.read(len(BLOCK)) == BLOCK)
    for turn in range(kills):
        has_no_dead(trial, f"f{turn}")
        same("what another wrote", plfs(trial, "cat", f"own{turn}"), b"own")


@check
def a_process_that_is_stopped_keeps_nobody_waiting(trial):
    with served(trial) as (door, _):
        stopped = process(trial, door, WRITES_ON)
        stopped.stdout.readline()
        for _ in range(10):
            os.kill(stopped.pid, signal.SIGSTOP)
            with joined(trial, door) as fs, fs.open("own", "wb") as out:
                out.write(b"own")
                same("what is there", out.sync(), 1)
            os.kill(stopped.pid, signal.SIGCONT)
            time.sleep(trial.random.random() * 0.02)
        stopped.kill()
        stopped.communicate()


@check
def a_broken_frame_ends_its_process_alone(trial):
    plfs_client = client(trial)
    broken = [HEAD.pack(model.WRITE, 1, 2, 0, 0, 2**24 + 1), HEAD.pack(model.WRITE, 1, 2, 0, 0, 100) + b"cut", b"cut"]
    with served(trial) as (door, serving):
        with joined(trial, door) as fs:
            for turn, frame in enumerate(broken):
                other = plfs_client.Mount(at=door)
                out = other.open(f"f{turn}", "wb")
                out.write(b"whole")
                os.write(other._to, frame)
                if turn:
                    os.close(other._to)
                    other._to = os.open("/dev/null", os.O_WRONLY)
                same("what it is answered", os.read(other._from, 100), b"")
                eventually("its writer is closed", lambda: not why_of(trial, lambda: fs.rename(f"f{turn}", f"g{turn}")))
                other._end()
            same("wrong numbers", why_of(trial, lambda: fs.ask(99, 0)), plfs_client.Why.BAD_NAME)
            with fs.open("own", "wb") as out:
                out.write(b"own")
        end(door)
        _, err = serving.communicate(timeout=SECONDS)
        true(f"standard error is {err!r}", err.count(b"\n") == len(broken) and err.count(b"its requests end within one") == len(broken))
    for turn in range(len(broken)):
        same("what came before", plfs(trial, "cat", f"g{turn}"), b"whole")
    same("what another wrote", plfs(trial, "cat", "own"), b"own")


@check
def what_an_engine_told_as_synced_is_there_after_it_is_killed(trial):
    plfs_client = client(trial)
    with served(trial) as (door, serving):
        mounts = [joined(trial, door) for _ in range(3)]
        files = [fs.open("f", "wb") for fs in mounts]
        for k, file in enumerate(files):
            file.pwrite(bytes([k + 1]) * 1000, k * 1000)
            same("what is synced", file.sync(), 1)
            file.pwrite(b"?" * 1000, k * 1000 + 5000)
        serving.kill()
        serving.wait()
        for k, fs in enumerate(mounts):
            same(f"a request of {k}", why_of(trial, lambda: fs.stat("f")), plfs_client.Why.GONE)
            fs.close()
    with served(trial) as (door, _):
        with joined(trial, door) as fs:
            same("how many writers died", fs.recover("f"), 3)
    whole = plfs(trial, "cat", "f")
    same("what was synced", whole[:3000], b"".join(bytes([k + 1]) * 1000 for k in range(3)))
