"""Readers that are refreshed while others write."""

import shutil
import signal
import time

from faults import UNSYNCED, below, each_call_is_failed, files_of, numbered, torn
from trial import SECONDS, WORK, check, same, true

# A reader is opened behind the first write, and the second one has landed before it is refreshed.
FRONT = "actor a\nactor b\na open f\na write 0 text:AAAA\na sync\nb ropen f\na write 1 text:BB\na sync\n"
OPENED = "3 open 4294967297\n4 wrote 0 4 STAMP\n5 synced 1\n6 reader 4 cut 4294967297:1 trunc -\n7 wrote 1 2 STAMP\n8 synced 2\n"
OLD, NEW = "read 0 41414141", "read 0 41424241"
REFRESHED = "reader 4 cut 4294967297:2 trunc -"


def told(ended, first):
    """The lines behind their numbers, from this line of the script on."""
    return [line.partition(" ")[2] for line in ended.out.splitlines() if int(line.partition(" ")[0]) >= first]


@check
def a_refreshed_reader_sees_what_came_and_prints_what_a_new_opening_does(trial):
    script = FRONT + "b read 0 4\nb refresh\nb read 0 4\nb map\nb refresh\nb rclose\nb refresh\nb ropen f\nb read 0 4\nb map\n"
    ended = trial.ends(1, script)
    same("the lines before it", ended.out[: len(OPENED)], OPENED)
    mapped = "map " + " ".join(f"{run}=STAMP.4294967297@{place}" for run, place in (("0+1", 0), ("1+2", 4), ("3+1", 3)))
    seen = [REFRESHED, NEW, mapped]
    same("the lines", told(ended, 9), [OLD, *seen, REFRESHED, "rclosed", "refused not-open", *seen])


@check
def a_refresh_without_a_reader_is_refused_and_with_a_word_too_many_is_no_script(trial):
    trial.ends(1, "actor a\na refresh\n", lines="2 refused not-open\n")
    trial.ends(2, "actor a\na refresh f\n", lines="script 2 count\n")


@check
def a_refreshed_reader_has_the_truncates_that_came_and_stays_with_its_container(trial):
    script = WORK.replace("actor a\n", "actor a\nactor b\n").replace("a sync\n", "")
    script += "b ropen f\na trunc f 2\nb read 0 9\nb refresh\nb read 0 9\na rename f g\na open g\na write 4 text:X\na close\nb refresh\nb read 0 9\n"
    lines = told(trial.ends(0, script), 6)
    same("the lines", lines, [
        "reader 5 cut 4294967297:1 trunc -", "truncated STAMP", "read 0 68656c6c6f",
        "reader 2 cut 4294967297:1 trunc STAMP:2", "read 0 6865",
        "renamed", "open 4294967300", "wrote 4 1 STAMP", "closed 1",
        "reader 5 cut 4294967297:1,4294967300:1 trunc STAMP:2", "read 0 6865000058",
    ])


def reads(calls, item):
    """Where the reads of such an item began, and how many bytes each asked for."""
    return [tuple(map(int, it.more)) for it in calls if it.kind == "read" and f"/{item}." in it.path]


@check
def a_refresh_reads_no_entry_that_the_reader_has(trial):
    written = "".join(f"a write {8 * i} text:{i:08d}\n" for i in range(1003))
    at = written.index("a write 8000 ")
    script = f"actor a\nactor b\na open f\n{written[:at]}a sync\nb ropen f\n{written[at:]}a sync\nb refresh\nb refresh\nb read 8000 24\n"
    ended, calls = trial.watched(script)
    lines = told(ended, 1010)
    shown = b"000010000000100100001002".hex()
    same("the lines", (ended.status, lines[-3:]), (0, ["reader 8024 cut 4294967297:1003 trunc -"] * 2 + [f"read 8000 {shown}"]))
    same("the reads of the index", reads(calls, "index"), [(0, 40000), (40000, 120)])
    same("the bytes of the log that were read", sum(length for _, length in reads(calls, "log")), 24)


@check
def a_reader_over_flattened_and_packed_indices_is_refreshed_by_the_entries_that_came(trial):
    trial.ends(0, WORK)
    for word in ("flatten", "migrate"):
        trial.ends(0, "", words=(word, "f"))
        # Of the writers that closed, the index droppings aren't read.
        opened = trial.ends(0, "actor b\nb ropen f\n").out.split()[4]
        ended, calls = trial.watched("actor a\nactor b\nb ropen f\nb refresh\na open f\na write 5 text:there\na sync\nb refresh\nb read 0 64\na close\n")
        lines = told(ended, 3)
        writer = lines[2].split()[1]
        same(f"the lines over {word}", (ended.status, lines[:2], lines[5:7]), (
            0, [f"reader {'5' if word == 'flatten' else '10'} cut {opened} trunc -"] * 2,
            [f"reader 10 cut {opened},{writer}:1 trunc -", f"read 0 {b'hellothere'.hex()}"]))
        read = [(it.path.rpartition(".")[2], *map(int, it.more)) for it in calls if it.kind == "read" and "/index." in it.path]
        same(f"the reads of index droppings over {word}", read, [(writer, 0, 40)])


@check
def each_failed_call_of_a_play_with_a_refresh_is_told_as_a_fault_with_its_reason(trial):
    each_call_is_failed(trial, torn, "actor b\nb ropen f\nb refresh\nb read 0 5\n", ("play",), {b"hello"})


def calls_of_a_refresh(trial):
    """The calls that a refresh behind FRONT makes below ROOT, each with its kind and its number of that kind."""
    counts = []
    for script in (FRONT, FRONT + "b refresh\n"):
        ended, calls = trial.watched(script, UNSYNCED)
        same(f"the status ({ended.out!r}, {ended.err!r})", ended.status, 0)
        counts.append([(kind, number, it.path.removeprefix(str(trial.root))) for it, kind, number in numbered(below(trial, calls))])
        emptied(trial)
    known = {(kind, number) for kind, number, _ in counts[0]}
    found = [it for it in counts[1] if it[:2] not in known]
    true(f"a refresh makes the calls {found}", len(found) >= 6)
    return found


def emptied(trial):
    shutil.rmtree(trial.root)
    trial.root.mkdir()


@check
def a_refresh_of_which_a_call_failed_leaves_the_reader_as_it_was_and_can_be_made_again(trial):
    script = FRONT + "b refresh\nb read 0 4\nb refresh\nb read 0 4\n"
    for kind, number, path in calls_of_a_refresh(trial):
        ended, made = trial.watched(script, f"fail EIO {kind} {number} {trial.root}*", UNSYNCED)
        what = f"a refresh with {kind} {number} of {path} failed"
        same(f"{what}: how often it failed", sum(it.end == "EIO" for it in made), 1)
        same(f"{what}: the lines", (ended.status, told(ended, 9)), (4, ["fault", OLD, REFRESHED, NEW]))
        true(f"{what}: the reason is {ended.err!r}", ended.err.startswith(f"plfs: {trial.root}") and ": Input/output error" in ended.err)
        emptied(trial)


@check
def a_kill_within_a_refresh_leaves_all_that_was_synced_and_nothing_new(trial):
    left = None
    for kind, number, path in calls_of_a_refresh(trial):
        ended, _ = trial.watched(FRONT + "b refresh\n", f"kill 9 {kind} {number} {trial.root}*", UNSYNCED)
        what = f"killed before {kind} {number} of {path}"
        same(f"{what}: the status", ended.status, -signal.SIGKILL)
        # Of the index the stamps differ from run to run, and they are all that does.
        found = {name: content if content is None else len(content) for name, content in files_of(trial.root).items()}
        same(f"{what}: what lies in ROOT", found, left or found)
        left = found
        trial.ends(0, "", words=("recover", "f"), lines="0 recovered 4294967297:2 alive - hold no\n")
        trial.holds(b"ABBA")
        emptied(trial)


@check
def an_actor_that_stops_within_a_refresh_is_gone_and_others_go_on(trial):
    for call in range(1, 7):
        script = FRONT + f"b stop {call} 1\nb refresh\nb read 0 4\nb refresh\na ropen f\na read 0 4\na refresh\n"
        lines = told(trial.ends(0, script), 9)
        same(f"the lines of a stop in call {call}", lines, ["armed", "stopped", "gone", "gone", REFRESHED, NEW, REFRESHED])
        emptied(trial)


WRITES, TURNS = 400, 40


def refreshing(readers):
    """A script for threads: one writer, and in the same phase readers that are refreshed and read; at last all is seen."""
    names = [f"r{number}" for number in range(readers)]
    lines = ["actor w 0 4", *(f"actor {name}" for name in names), "w open f", "phase", *(f"{name} ropen f 2" for name in names), "phase"]
    lines += [f"w write {8 * i} text:{i:08d}" for i in range(WRITES)] + ["w sync"]
    lines += [line for name in names for _ in range(TURNS) for line in (f"{name} refresh", f"{name} read 0 {8 * WRITES}")]
    return "\n".join([*lines, "phase", *(line for name in names for line in (f"{name} refresh", f"{name} read 0 {8 * WRITES}")), "w close", ""])


CONTENT = b"".join(b"%08d" % i for i in range(WRITES))


def counted(line):
    """How many entries of the one writer a reader's line tells of."""
    cut = line.split(" cut ")[1].split()[0]
    return 0 if cut == "-" else int(cut.partition(":")[2])


@check
def readers_that_are_refreshed_on_threads_beside_a_writer_only_go_on(trial):
    readers = 3
    for words in (("run",), ("play",)):
        ended = trial.ends(0, refreshing(readers), words=words)
        shown = [line.partition(" ")[2] for line in ended.out.splitlines()]
        began = next(place for place, line in enumerate(shown) if line == f"synced {WRITES}") + 1
        pairs = list(zip(shown[began::2], shown[began + 1 :: 2]))
        for reader in range(readers):
            seen = 0
            for line, read in pairs[reader * TURNS : (reader + 1) * TURNS] + [pairs[readers * TURNS + reader]]:
                count = counted(line)
                true(f"a reader of {seen} entries has {count} once it was refreshed", seen <= count <= WRITES)
                seen = count
                same("the size in its line", line.split()[:2], ["reader", str(8 * count)])
                same("what it reads", read.split()[-1], CONTENT[: 8 * count].hex() or "-")
            same("what it has at last", seen, WRITES)
        emptied(trial)


@check
def after_a_kill_beside_refreshes_on_threads_all_that_had_landed_is_read_back(trial):
    for _ in range(5):
        started = trial.start(refreshing(3), words=("run",))
        index = trial.root / "f" / "hostdir.0" / "index.0.4294967297"
        least, end = trial.random.randrange(1, 40 * WRITES), time.monotonic() + SECONDS
        while started.poll() is None and not (index.exists() and index.stat().st_size >= least):
            true("a run had not ended in time", time.monotonic() < end)
        started.send_signal(signal.SIGKILL)
        started.communicate()
        landed = index.stat().st_size // 40 if index.exists() else 0
        if started.returncode == -signal.SIGKILL:
            recovered = trial.run("", words=("recover", "f"))
            true(f"what is recovered is {recovered.out!r}", recovered.status == 0 and " alive - " in recovered.out)
        ended = trial.ends(0, f"actor r\nr ropen f\nr refresh\nr read 0 {8 * WRITES}\n")
        same("what is read back", ended.out.split()[-1], CONTENT[: 8 * landed].hex() or "-")
        emptied(trial)
