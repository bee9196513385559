"""An engine that several processes share by a folder, and these processes, killed at random moments. What a sync told stands, the folder is sound, and
nobody waits for one that died."""

import contextlib
import os
import shutil
import time

from checks import checked
from engine_workers import (LENGTHS, OVER, PYTHON_RANKS, SOON, VISITOR, WRITERS, Process, Told, block_of, ended_soon, in_c, in_python, killed_all, reader, stands,
                            visitor, within)
from engines import client, has_no_dead, plfs
from engines_at import PLACES, end, eventually, joined, started, why_of
from trial import SECONDS, check, same, true

# So many kills where no other number is asked for.
KILLED = 20


def is_sound(trial, what):
    same(f"plfs_check {what}", checked(trial), (0, "sound\n", ""))


def visited(trial, told, name):
    """The files of a visitor that were told are there. The last one may have its size from before or after, and the name from before."""
    for k in range(told[VISITOR] + 1):
        place = trial.root / f"{name}.{k}"
        if k == told[VISITOR] and not place.is_dir():
            break
        got = plfs(trial, "cat", f"{name}.{k}")
        wanted = block_of(k, 500)
        may_be = [wanted[:100] if k % 3 == 2 else wanted] + [wanted] * (k + 1 >= told[VISITOR])
        true(f"file {k} of {told[VISITOR]} has {len(got)} bytes, {got[:9]!r} ..", got in may_be)


def files_of(trial):
    """The names of all files. What was made in part begins with a point."""
    return sorted(it.name for it in trial.root.iterdir() if it.name[0] != "." and (it / "access").exists())


def recovered(trial, door, moment):
    """All files are recovered: by the command, or through another engine."""
    names = files_of(trial)
    if moment % 2:
        for name in names:
            plfs(trial, "recover", name)
        return
    serving = started(trial, door)
    try:
        with within(SECONDS, "a recovery"):
            with joined(trial, door) as fs:
                for name in names:
                    fs.recover(name)
            end(door)
            same("how the next engine ends", (serving.communicate()[0], serving.returncode), (b"", 0))
    finally:
        serving.kill()
        serving.communicate()


def is_killed_well(trial, door, moment):
    """Kills an engine at a random moment. Answers how many writes were told."""
    trial.root = trial.folder / f"root{moment}"
    trial.root.mkdir()
    told, length = Told(trial.folder / "told"), LENGTHS[moment % len(LENGTHS)]
    gone, not_started = client(trial).Why.GONE, client(trial).Why.NOT_STARTED
    serving = started(trial, door)
    processes = [in_c(trial, door, told, "f", length), reader(trial, door, told, "f", length), visitor(trial, door, told, "own")]
    processes += [in_python(trial, door, told, "f", length, rank) for rank in PYTHON_RANKS]
    try:
        # It may be killed as it mounts, as it lets processes in, behind a sync, or behind many.
        wanted = (0, 0, 1, 3 + trial.random.randrange(60))[moment % 4]
        with within(SECONDS, "the work before the kill"):
            while sum(told[rank] for rank in range(5)) < wanted and serving.poll() is None:
                time.sleep(0.001)
        time.sleep(trial.random.random() * (0.05, 0.25, 0.1, 0.1)[moment % 4])
        serving.kill()
        told[OVER] = 1
        before = [told[rank] for rank in range(5)]
        statuses = ended_soon(processes, f"at moment {moment} a process whose engine was killed")
    finally:
        killed_all(processes)
        serving.kill()
        serving.communicate()
    true(f"at moment {moment} the processes ended with {statuses} ({[it.said() for it in processes if isinstance(it, Process)]})", {*statuses} <= {gone, not_started})
    is_sound(trial, f"behind the kill at moment {moment}")
    recovered(trial, door, moment)
    is_sound(trial, f"behind the recovery at moment {moment}")
    counts = [told[rank] for rank in range(WRITERS)]
    whole = plfs(trial, "cat", "f") if (trial.root / "f").is_dir() else b""
    stands(whole, counts, length)
    visited(trial, told, "own")
    for name in files_of(trial):
        has_no_dead(trial, name)
    shutil.rmtree(trial.root)
    return sum(before)


@check
def after_kills_of_an_engine_of_several_processes_what_it_told_is_there_and_nobody_waits(trial):
    door = trial.folder / "door"
    door.mkdir()
    os.mkfifo(door / "join")
    most, moments = 0, trial.kills or KILLED
    for moment in range(moments):
        most = max(most, is_killed_well(trial, door, moment))
    same("what is left in the folder", sorted(it.name for it in door.iterdir()), ["join"])
    true("no client came to a sync", most > 0)
    trial.note = f"{moments} kills, with up to {most} writes and files told"


# ---- processes that are killed


def victims_of(trial, door, told, moment):
    """Two processes, of which one at least writes: in C with two threads, in Python, by visits, or one that reads."""
    length, name = LENGTHS[moment % len(LENGTHS)], f"f{moment}"
    kinds = [
        lambda: in_c(trial, door, told, name, length),
        lambda: in_python(trial, door, told, name, length, PYTHON_RANKS[0]),
        lambda: visitor(trial, door, told, f"own{moment}"),
        lambda: reader(trial, door, told, name, length),
    ]
    first = trial.random.randrange(3)
    return [kinds[first](), kinds[(first + 1 + trial.random.randrange(3)) % 4]()]


def what_was_killed_is_there(trial, fs, told, moment):
    """The file of those that were killed has what was told, its writers are closed, and so are those of a visit."""
    length, name = LENGTHS[moment % len(LENGTHS)], f"f{moment}"
    names = fs.list()
    if name in names:
        with fs.open(name, "rb") as file:
            stands(file.readall(), [told[rank] for rank in range(WRITERS)], length)
    else:
        same("what was told of a file that isn't there", [told[rank] for rank in range(WRITERS)], [0] * WRITERS)
    true(f"of {told[VISITOR]} files of a visitor there are {names}", {f"own{moment}.{k}" for k in range(told[VISITOR])} <= {*names})
    for it in names:
        if it == name or it.startswith(f"own{moment}."):
            eventually(f"the writers of {it} are closed", lambda: not why_of(trial, lambda: fs.rename(it, f"closed.{it}")))


def is_left_well(trial, door, fs, own, moment):
    """Kills two processes at a random moment, while another one's writer goes on. Answers how many writes were told."""
    told = Told(trial.folder / "told")
    victims = victims_of(trial, door, told, moment)
    try:
        # They may be killed as they begin and join, behind what was told first, or behind much.
        wanted = (0, 1, 3 + trial.random.randrange(30))[moment % 3]
        begun = time.monotonic()
        while sum(told[rank] for rank in range(5)) < wanted and time.monotonic() < begun + SECONDS:
            time.sleep(0.001)
        time.sleep(trial.random.random() * (0.15, 0.05, 0.05)[moment % 3])
        for it in victims:
            it.kill()
        with within(SOON, f"at moment {moment} what another process asks"):
            own.pwrite(bytes([moment % 255 + 1]) * 100, 100 * moment)
            same("what is synced of another process", own.sync(), moment + 1)
            what_was_killed_is_there(trial, fs, told, moment)
    finally:
        killed_all(victims)
    trouble = [it.said() for it in victims if isinstance(it, Process) and it.ended == 98]
    same(f"what went wrong at moment {moment}", trouble, [])
    return sum(told[rank] for rank in range(5))


def has_of(process, door):
    """How many pipes of this folder a process has open, and how many threads. Its descriptors of logs may grow."""
    pipes = 0
    for number in os.listdir(f"/proc/{process}/fd"):
        with contextlib.suppress(FileNotFoundError):
            pipes += os.readlink(f"/proc/{process}/fd/{number}").startswith(str(door / ""))
    return pipes, len(os.listdir(f"/proc/{process}/task"))


@check
def after_kills_of_processes_what_they_were_told_is_there_and_nobody_waits(trial):
    most, moments = 0, trial.kills or KILLED
    door = trial.folder / "door"
    door.mkdir()
    os.mkfifo(door / "join")
    serving = started(trial, door)
    try:
        with joined(trial, door) as fs, fs.open("own", "wb") as own:
            before = has_of(serving.pid, door)
            for moment in range(moments):
                most = max(most, is_left_well(trial, door, fs, own, moment))
            eventually("the engine has as many pipes and threads as at first", lambda: has_of(serving.pid, door) == before)
            mounts = [client(trial).Mount(at=door) for _ in range(PLACES - 1)]
            for it in mounts:
                it.close()
        end(door)
        with within(SOON, "the engine's end"):
            out, _ = serving.communicate()
        same("how the engine ends", (serving.returncode, out), (0, b""))
    finally:
        serving.kill()
        serving.communicate()
    true("no client came to a sync", most > 0)
    whole = plfs(trial, "cat", "own")
    same("what another process wrote", whole, b"".join(bytes([moment % 255 + 1]) * 100 for moment in range(moments)))
    is_sound(trial, "at the end")
    for name in files_of(trial):
        has_no_dead(trial, name)
    left = [it for it in os.listdir(door) if it != "join"]
    trial.note = f"{moments} times two were killed, with up to {most} writes and files told; {len(left)} pipes are left"
