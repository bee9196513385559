"""Runs that are stopped at any place, and what the next run reads back."""

import shutil
import signal
import time

from faults import UNSYNCED, WORKS, below, numbered, read_back
from trial import SECONDS, WORK, check, same, size_limit, true

WRITES = 100
# So many runs are killed where the machine lets it happen and no other number is asked for, in twice so many rounds at most.
KILLED = 20
STOPPED = 16

# A run: each write has so many bytes of its own, and every tenth is followed by a sync.
def writing(turn, width=8):
    lines = ["actor a", "a open f"]
    for i in range(WRITES):
        lines.append(f"a write {width * i} text:{spelled(turn, i, width)}")
        if i % 10 == 9:
            lines.append("a sync")
    return "\n".join([*lines, "a close", ""])


def spelled(turn, i, width):
    return f"{turn:03d}.{i:04d}".ljust(width, "~")


def replayed(counts, width):
    """The content after the first writes of each run, in the order of the runs."""
    content = bytearray()
    for turn, count in counts:
        for i in range(count):
            content[width * i : width * (i + 1)] = spelled(turn, i, width).encode()
    return bytes(content)


def size_of(path):
    """The length of a file in bytes, 0 where there is none."""
    try:
        return path.stat().st_size
    except FileNotFoundError:
        return 0


def marks(trial):
    """How many runs have mounted."""
    folder = trial.root / ".plfs" / "mounts"
    return len(list(folder.iterdir())) if folder.is_dir() else 0


def places(trial):
    """The writer of the next run, its log and its index."""
    writer = (marks(trial) + 1) * 2**32 + 1
    folder = trial.root / "f" / "hostdir.0"
    return writer, folder / f"log.0.{writer}", folder / f"index.0.{writer}"


def killed_when(started, is_time):
    """Kills the run by signal 9 as soon as that is so, and returns whether it had not ended by itself."""
    end = time.monotonic() + SECONDS
    while started.poll() is None and not is_time():
        true("a run had not ended in time", time.monotonic() < end)
    started.kill()
    started.communicate()
    return started.returncode == -signal.SIGKILL


def reading(trial, width):
    """What a run of its own reads back: the count of each writer, and the content."""
    ended = trial.ends(0, f"actor a\na ropen f\na read 0 {width * WRITES}\n")
    reader, read = ended.out.splitlines()
    listed = reader.split(" cut ")[1].split()[0]
    cut = {} if listed == "-" else dict(map(int, it.split(":")) for it in listed.split(","))
    shown = read.split()[-1]
    return cut, b"" if shown == "-" else bytes.fromhex(shown)


def is_read_back(trial, counts, turn, width, writer, log, index):
    """Adds to the counts what the run left, which the next run must read back with all that is there from before."""
    landed = size_of(index) // 40
    true(f"{landed} entries landed, and the log is shorter", width * landed <= size_of(log))
    counts.append((turn, landed))
    cut, content = reading(trial, width)
    same(f"the count of the run {turn}", cut.get(writer, 0), landed)
    same(f"the content after the run {turn}", content, replayed(counts, width))
    return landed


@check
def after_kills_at_random_writes_all_that_had_landed_is_read_back(trial):
    trial.ends(0, "actor a\na open f\na close\n")
    counts, killed, most = [], 0, trial.kills or KILLED
    for turn in range(2 * most):
        if killed == most:
            break
        place = writer, log, index = places(trial)
        least = trial.random.randrange(8 * WRITES)
        killed += killed_when(trial.start(writing(turn)), lambda: size_of(log) > least)
        is_read_back(trial, counts, turn, 8, *place)
    true("no run was killed", killed)
    trial.note = f"{killed} of {len(counts)} were killed"


@check
def after_stops_at_any_byte_of_a_file_all_that_was_synced_is_read_back(trial):
    for width, most in ((8, 40 * WRITES), (100, 100 * WRITES)):
        trial.ends(0, "actor a\na open f\na close\n")
        counts = []
        for turn in range(STOPPED):
            place = places(trial)
            # Every fourth run has room for all that it writes, and tells that it was synced.
            is_whole = turn % 4 == 0
            limit = most if is_whole else trial.random.randrange(most)
            ended = trial.run(writing(turn, width), limits=[(size_limit, limit)])
            if is_whole:
                same("the last line", ended.out.splitlines()[-1].partition(" ")[2], f"closed {WRITES}")
            else:
                true(f"it ended with {ended.status}", ended.status in (4, -signal.SIGXFSZ))
            landed = is_read_back(trial, counts, turn, width, *place)
            true("what was synced is missing", landed == WRITES or not is_whole)
            # Below the limit all groups of ten writes were synced whose bytes and entries fit there.
            true(f"{landed} landed below {limit} bytes", landed >= limit // max(40, width) // 10 * 10)
        (trial.root / "f").rename(trial.folder / f"f{width}")


@check
def after_kills_while_containers_are_made_each_is_whole_or_absent_and_little_is_left(trial):
    trial.ends(0, WORK)
    spent = time.monotonic()
    trial.ends(0, WORK.replace("open f", "open e"))
    spent = time.monotonic() - spent
    killed, turns, most = 0, 0, trial.kills or KILLED
    while turns < 3 * most and killed < most:
        killed += is_killed_while_making(trial, f"c{turns}", trial.random.random() * spent)
        turns += 1
    true("no run was killed", killed)
    trial.note = f"{killed} of {turns} were killed"
    trial.holds()
    for turn in range(turns):
        ended = trial.run(f"actor a\na ropen c{turn}\na read 0 64\n")
        found = [line.partition(" ")[2].partition(" cut")[0] for line in ended.out.splitlines()]
        is_whole = found in (["reader 0", "read 0 -"], ["reader 5", "read 0 68656c6c6f"])
        true(f"c{turn} reads as {found} with status {ended.status}", is_whole or found[:1] == ["refused no-file"])
    trial.ends(0, WORK.replace("open f", "open last"))
    left = sorted(it.name for it in trial.root.iterdir() if it.name.startswith(".new."))
    true(f"{len(left)} leftovers stand in ROOT: {left[:5]}", len(left) <= 1)


def is_killed_while_making(trial, name, wait):
    """Kills a run that makes a container so many seconds after its mounting, unless it has ended before."""
    before = marks(trial)
    mounted = []

    def is_time():
        if not mounted and marks(trial) > before:
            mounted.append(time.monotonic())
        return mounted and time.monotonic() > mounted[0] + wait

    return killed_when(trial.start(WORK.replace("open f", f"open {name}")), is_time)


# The kinds of calls before which a run is killed: those that change what lies in ROOT.
CHANGING = {"create", "write", "cut", "rename", "remove", "mkdir", "rmdir"}


@check
def after_a_kill_before_any_change_nothing_is_damaged_and_no_container_stays_held(trial):
    kept = trial.folder / "kept"
    for before, script, words, contents in WORKS:
        if words[0] in ("stat", "map", "ls"):
            continue
        for folder in (trial.root, kept):
            shutil.rmtree(folder, ignore_errors=True)
        trial.root.mkdir()
        before(trial)
        shutil.copytree(trial.root, kept)
        _, calls = trial.watched(script, UNSYNCED, words=words)
        for call, kind, number in numbered(below(trial, calls)):
            if kind not in CHANGING:
                continue
            shutil.rmtree(trial.root)
            shutil.copytree(kept, trial.root)
            ended, _ = trial.watched(script, f"kill 9 {kind} {number} {trial.root}*", UNSYNCED, words=words)
            what = f"{words} killed before {kind} {number} of {call.path.removeprefix(str(trial.root))}"
            same(f"{what}: the status", ended.status, -signal.SIGKILL)
            for name in "fg":
                after = trial.run("", words=("recover", name), **trial.watch([UNSYNCED], "after"))
                true(f"{what}: a recovery of {name} is {after}", after.status == 0 or after.out == "0 refused no-file\n")
            content = read_back(trial)
            true(f"{what}: {content!r} is read back", content in contents)
            if content is not None:
                written = trial.run(WORK, **trial.watch([UNSYNCED], "after"))
                same(f"{what}: the status of a later writer ({written.out!r}, {written.err!r})", written.status, 0)
