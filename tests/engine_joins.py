"""How a process joins an engine by a folder: where that begins late, is slow, or takes nobody up."""

import contextlib
import os
import subprocess
import time

from engine_model import ANSWER, HEAD
from engine_workers import OVER, Process, Told, ended_soon, in_c, killed_all, mount_of, within
from engines import client
from engines_at import joined, script, started
from trial import SECONDS, check, same, true


@contextlib.contextmanager
def taken_for_an_engine(trial, name):
    """A folder whose pipe this process reads, as an engine does that takes nobody up: the folder, and what reads the next name."""
    door = trial.folder / name
    door.mkdir()
    os.mkfifo(door / "join")
    join = os.open(door / "join", os.O_RDWR)

    def announced():
        line = b""
        while not line.endswith(b"\n"):
            line += os.read(join, 1)
        return line[:-1].decode()

    try:
        yield door, announced
    finally:
        os.close(join)


def visits_of(trial, door, told):
    """A process of each language that joins."""
    told[OVER] = 1
    return [Process(trial, lambda: mount_of(trial, door, told)), in_c(trial, door, told, "f", 1000)]


@check
def a_process_waits_for_an_engine_that_begins_behind_it(trial):
    told, door = Told(trial.folder / "told"), trial.folder / "door"
    door.mkdir()
    same("where nobody waits", [ended_soon(visits_of(trial, door, told), "a process without an engine")], [[client(trial).Why.NOT_STARTED] * 2])
    os.environ["PLFS_WAIT"] = str(SECONDS)
    processes = visits_of(trial, door, told)
    os.environ["PLFS_WAIT"] = "0"
    serving = None
    try:
        time.sleep(0.3)
        same("how they stand", [it.poll() for it in processes], [None, None])
        os.mkfifo(door / "join")
        time.sleep(0.1)
        serving = started(trial, door)
        with within(SECONDS, "what they do"):
            while not told[0] or processes[0].poll() is None:
                time.sleep(0.002)
        same("how the first ends", processes[0].poll(), 0)
    finally:
        killed_all(processes)
        if serving:
            serving.kill()
            serving.communicate()


@check
def the_root_script_removes_the_pipes_of_the_dead_and_nothing_else(trial):
    door = trial.folder / "door"
    door.mkdir()
    for name in ("12-0.in", "12-0.out", "7-1.in", "data.in", "1-2", "1-2.in.old"):
        os.mkfifo(door / name)
    (door / "3-4.in").write_bytes(b"kept")
    kept = ["1-2", "1-2.in.old", "3-4.in", "data.in", "join"]
    words = [script(trial), trial.root, "--at", door]
    serving = subprocess.Popen(words, stdin=subprocess.DEVNULL, stdout=subprocess.PIPE, stderr=subprocess.PIPE)
    try:
        with joined(trial, door):
            same("what is left", sorted(os.listdir(door)), kept)
            os.mkfifo(door / "12-0.in")
            second = subprocess.run(words, stdin=subprocess.DEVNULL, stdout=subprocess.PIPE, stderr=subprocess.PIPE, timeout=SECONDS)
            same("a second engine", (second.returncode, second.stderr), (4, f"plfs: {door}: in use by another program\n".encode()))
            same("what is left beside it", sorted(os.listdir(door)), sorted([*kept, "12-0.in"]))
        serving.terminate()
        same("how it ends", (serving.wait(SECONDS), sorted(os.listdir(door))), (0, sorted([*kept, "12-0.in"])))
    finally:
        serving.kill()
        serving.communicate()


@check
def a_process_that_an_engine_does_not_take_up_is_told_so(trial):
    told, gone = Told(trial.folder / "told"), client(trial).Why.GONE
    with taken_for_an_engine(trial, "reads") as (door, announced):
        visits = visits_of(trial, door, told)
        names = [announced() for _ in visits]
        same("how they end where no pipe is opened", ended_soon(visits, "a process that isn't taken up"), [gone, gone])
        visits = visits_of(trial, door, told)
        for _ in visits:
            os.close(os.open(door / f"{announced()}.in", os.O_RDONLY))
        same("how they end where one pipe is opened", ended_soon(visits, "a process that isn't taken up"), [gone, gone])
        true("a name came twice", len({*names}) == 2)
        same("what is left", os.listdir(door), ["join"])


@check
def a_process_waits_for_an_engine_that_is_slow_to_answer(trial):
    told, why = Told(trial.folder / "told"), client(trial).Why
    with taken_for_an_engine(trial, "slow") as (door, announced):
        visits = visits_of(trial, door, told)
        pipes = []
        for _ in visits:
            name = announced()
            pipes.append((os.open(door / f"{name}.in", os.O_RDONLY), os.open(door / f"{name}.out", os.O_WRONLY)))
        time.sleep(2.5)
        same("how they stand", [it.poll() for it in visits], [None, None])
        for requests, answers in pipes:
            number = HEAD.unpack(os.read(requests, HEAD.size))[2]
            os.write(answers, ANSWER.pack(number, 1, why.NOT_OPEN, 0))
        for pair in pipes:
            for end_of in pair:
                os.close(end_of)
        same("how they end", ended_soon(visits, "a process whose engine has ended"), [0, why.GONE])
