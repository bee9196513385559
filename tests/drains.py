"""Containers that are drained to a second folder: whole, killed, failed and again."""

import os
import shutil
import signal
import time

from faults import UNSYNCED, is_reason, numbered
from kills import CHANGING, killed_when
from locks import IN_USE, Held
from trial import Skipped, WORK, check, listed, same, size_limit, true

NO_FILE = "0 refused no-file\n"
# So many drains are killed where the machine lets it happen and no other number is asked for, in twice so many rounds at most.
KILLED = 60
# Writers and writes of a container that takes a drain some time.
WRITERS, WRITES, LENGTH = 3, 40, 3000

# Two writers whose writes overlap.
OVERLAP = "actor v\nactor w\nv open f\nw open f\nv write 0 text:AAAA\nw write 1 text:BB\nv close\nw close\n"


def target_of(trial, name="target"):
    """A folder for a target, which is empty. A program whose usage line has no drain is not tried."""
    if "drain NAME FOLDER" not in trial.ends(2, "", words=("drain",)).out:
        raise Skipped("the program drains nothing")
    folder = trial.folder / name
    folder.mkdir(exist_ok=True)
    return folder


def drains(trial, target, said, status=0, name="f", **how):
    """Drains the container of this name, and asks for what is said."""
    return trial.ends(status, "", words=("drain", name, str(target)), lines=said, **how)


def droppings(root, name="f"):
    """The logs, index droppings and truncates of a container, each with its bytes."""
    found = listed(root / name)
    return {path: found[path] for path in found if path.startswith(("hostdir.", "truncs/")) and "/index2." not in path}


def is_copied(trial, target, name="f"):
    """The target has each dropping of the source, byte by byte, and shows the same file."""
    same("the droppings", droppings(target, name), droppings(trial.root, name))
    for word in ("map", "cat"):
        same(f"what {word} tells there", trial.ends(0, "", target, words=(word, name)).out, trial.ends(0, "", words=(word, name)).out)


def large():
    """A script of several writers with many writes of some length, each synced now and then."""
    names = [f"a{i}" for i in range(WRITERS)]
    lines = [f"actor {it} {i}" for i, it in enumerate(names)]
    for i, it in enumerate(names):
        lines.append(f"{it} open f")
        for k in range(WRITES):
            lines.append(f"{it} write {LENGTH * (k * WRITERS + i)} text:{f'{i}.{k:03d}.' * (LENGTH // 6)}")
            if k % 10 == 9:
                lines.append(f"{it} sync")
    return "\n".join([*lines, *(f"{it} close" for it in names), ""])


@check
def a_container_is_drained_and_a_second_drain_has_nothing_to_copy(trial):
    target = target_of(trial)
    trial.ends(0, OVERLAP)
    drains(trial, target, "drained 2 2 6\n")
    drains(trial, target, "drained 0 0 0\n")
    trial.ends(0, "", target, words=("cat", "f"), lines="ABBA")
    is_copied(trial, target)
    # A writer that comes later is drained alone, behind a recovery there too.
    trial.ends(0, "", target, words=("recover", "f"), lines="0 recovered 4294967297:1,4294967298:1 alive - hold no\n")
    trial.ends(0, "actor a\na open f\na write 4 text:C\na sync\n")
    drains(trial, target, "drained 1 1 1\n")
    trial.ends(0, "", target, words=("cat", "f"), lines="ABBAC")
    is_copied(trial, target)


@check
def a_writer_that_left_at_the_target_and_went_on_is_refused_as_taken(trial):
    target = target_of(trial)
    trial.ends(0, "actor a\na open f\na write 0 text:A\na sync\na write 1 text:B\na sync\n")
    # The source as it was behind the first sync.
    index = next((trial.root / "f").glob("hostdir.*/index.*"))
    whole = index.read_bytes()
    index.write_bytes(whole[:40])
    drains(trial, target, "drained 1 1 1\n")
    trial.ends(0, "", target, words=("recover", "f"), lines="0 recovered 4294967297:1 alive - hold no\n")
    index.write_bytes(whole)
    before = listed(target)
    drains(trial, target, "0 refused taken 4294967297 1 2\n", 1)
    same("the target", listed(target), before)


@check
def truncates_hosts_and_several_containers_are_drained(trial):
    target = target_of(trial)
    trial.ends(0, large())
    trial.ends(0, "", words=("trunc", "f", "100000"))
    trial.ends(0, "", words=("flatten", "f"))
    trial.ends(0, WORK.replace("open f", "open g"))
    size = WRITERS * WRITES * (LENGTH // 6 * 6)
    drains(trial, target, f"drained {WRITERS} {WRITERS * WRITES} {size}\n")
    drains(trial, target, "drained 1 1 5\n", name="g")
    for name in "fg":
        is_copied(trial, target, name)
    same("the containers there", sorted(it.name for it in target.iterdir()), [".plfs", "f", "g"])
    drains(trial, target, NO_FILE, 1, name="h")


@check
def a_second_drain_reads_no_byte_of_a_log(trial):
    target = target_of(trial)
    trial.ends(0, large())
    drains(trial, target, None)
    trial.ends(0, "", words=("drain", "f", str(target)), lines="drained 0 0 0\n", **trial.watch())
    same("reads of logs", [it for it in trial.calls() if it.kind == "read" and "/log." in it.path], [])
    same("writes to the container", [it for it in trial.calls() if it.kind == "write" and it.path.startswith(f"{target}/f/")], [])
    # Of what comes later it reads just those bytes.
    trial.ends(0, "actor a\na open f\na write 0 text:later\na close\n")
    trial.ends(0, "", words=("drain", "f", str(target)), lines="drained 1 1 5\n", **trial.watch())
    same("bytes read of logs", sum(it.end for it in trial.calls() if it.kind == "read" and "/log." in it.path), 5)


@check
def behind_kills_of_a_drain_at_random_moments_the_next_one_copies_the_rest(trial):
    trial.ends(0, large())
    spent = time.monotonic()
    drains(trial, target_of(trial), None)
    spent = time.monotonic() - spent
    killed, turn, most = 0, 0, trial.kills or KILLED
    while turn < 2 * most and killed < most:
        target = target_of(trial, f"target{turn}")
        end = time.monotonic() + trial.random.random() * spent
        killed += killed_when(trial.start("", words=("drain", "f", str(target))), lambda: time.monotonic() > end)
        drains(trial, target, None)
        same(f"the droppings behind the kill {turn}", droppings(target), droppings(trial.root))
        if turn % 10 == 0:
            is_copied(trial, target)
        shutil.rmtree(target)
        turn += 1
    true("no drain was killed", killed)
    trial.note = f"{killed} of {turn} were killed"


def calls_of_a_drain(trial):
    """Where the source as it was is kept, the target, the drain's words, and each of its calls in either folder: both are as before the
    drain when a call is handed out."""
    trial.ends(0, OVERLAP)
    kept, target = trial.folder / "kept", target_of(trial)
    shutil.copytree(trial.root, kept)
    words = ("drain", "f", str(target))
    _, calls = trial.watched("", UNSYNCED, words=words)
    for call, kind, number in list(numbered(it for it in calls if it.path.startswith(str(trial.folder)))):
        if kind in ("close", "lock"):
            continue
        for folder in (trial.root, target):
            shutil.rmtree(folder)
        shutil.copytree(kept, trial.root)
        target.mkdir()
        yield kept, target, words, call, kind, number, f"{kind} {number} of {call.path.removeprefix(str(trial.folder))}"


@check
def behind_a_kill_before_any_change_the_next_drain_copies_the_rest(trial):
    changes = 0
    for kept, target, words, call, kind, number, what in calls_of_a_drain(trial):
        if call.kind not in CHANGING:
            continue
        changes += 1
        ended, _ = trial.watched("", f"kill 9 {kind} {number} {trial.folder}*", UNSYNCED, words=words)
        same(f"killed before {what}: the status", ended.status, -signal.SIGKILL)
        drains(trial, target, None, **trial.watch([UNSYNCED], "after"))
        same(f"killed before {what}: the droppings", droppings(target), droppings(kept))
        same(f"killed before {what}: the file", trial.ends(0, "", target, words=("cat", "f")).out, "ABBA")
    true(f"it made {changes} changes", changes > 20)


@check
def each_failed_call_of_a_drain_is_told_as_a_fault_with_its_folder_and_the_next_one_copies_the_rest(trial):
    for kept, target, words, call, kind, number, what in calls_of_a_drain(trial):
        ended, _ = trial.watched("", f"fail EIO {kind} {number} {trial.folder}*", UNSYNCED, words=words)
        same(f"{what}: the end", (ended.status, ended.out), (4, "0 fault\n"))
        # (what holds both folders is looked at for each)
        folders = [it for it in (target, trial.root) if call.path.startswith(str(it))] or [target, trial.root]
        true(f"{what}: {ended.err!r}", any(ended.err.startswith(f"plfs: {it}") for it in folders) and is_reason(ended.err))
        drains(trial, target, None, **trial.watch([UNSYNCED], "after"))
        same(f"{what}: the droppings", droppings(target), droppings(kept))


@check
def a_target_without_room_or_permission_or_that_is_gone_is_a_fault_of_that_folder(trial):
    trial.ends(0, large())
    target = target_of(trial)
    full = trial.run("", words=("drain", "f", str(target)), limits=[(size_limit, 20000)])
    true(f"a full target ends as {full}", full.status in (4, -signal.SIGXFSZ))
    drains(trial, target, None)
    is_copied(trial, target)
    closed = target_of(trial, "closed")
    os.chmod(closed, 0o555)
    ended = drains(trial, closed, "0 fault\n", 4)
    true(f"standard error: {ended.err!r}", ended.err.startswith(f"plfs: {closed}") and "Permission denied" in ended.err)
    os.chmod(closed, 0o755)
    gone = trial.folder / "gone"
    ended = drains(trial, gone, "0 fault\n", 4)
    true(f"standard error: {ended.err!r}", ended.err.startswith(f"plfs: {gone}"))
    same("no folder was made", gone.exists(), False)


@check
def a_target_that_is_in_use_or_is_the_source_is_a_fault_and_is_not_touched(trial):
    trial.ends(0, OVERLAP)
    target = target_of(trial)
    trial.ends(0, WORK.replace("open f", "open g"), target)
    held = Held(trial, WORK.replace("open f", "open g"), "create", f"{target}/.plfs/mounts/*", root=target)
    before = listed(target)
    ended = drains(trial, target, "0 fault\n", 4)
    same("standard error", ended.err, f"plfs: {target}{IN_USE}")
    same("the target", listed(target), before)
    held.ends()
    before = listed(trial.root)
    ended = drains(trial, trial.root, "0 fault\n", 4)
    true(f"standard error: {ended.err!r}", ended.err.startswith(f"plfs: {trial.root}"))
    same("the source", listed(trial.root), before)


@check
def damage_at_either_side_is_told_and_ends_a_drain(trial):
    trial.ends(0, OVERLAP)
    target = target_of(trial)
    drains(trial, target, "drained 2 2 6\n")
    for root in (target, trial.root):
        junk = root / "f" / "hostdir.0" / "junk"
        junk.touch()
        ended = drains(trial, target, "0 damaged hostdir.0/junk 0\n", 7)
        true(f"standard error: {ended.err!r}", "hostdir.0/junk" in ended.err)
        junk.unlink()
    drains(trial, target, "drained 0 0 0\n")


@check
def words_that_are_no_drain_print_the_usage_line_and_touch_nothing(trial):
    target = target_of(trial)
    for words in (("drain",), ("drain", "f"), ("drain", ".f", str(target)), ("drain", "f", str(target), "more")):
        ended = trial.ends(2, "", words=words)
        true(f"{words} prints {ended.out!r}", ended.out.startswith("usage: plfs ROOT "))
    trial.is_untouched()
    same("the target", listed(target), {})


@check
def a_drain_beside_a_run_is_refused_by_the_lock_of_root(trial):
    trial.ends(0, OVERLAP)
    target = target_of(trial)
    held = Held(trial, WORK, "create", f"{trial.root}/.plfs/mounts/*")
    ended = drains(trial, target, "0 fault\n", 4)
    same("standard error", ended.err, f"plfs: {trial.root}{IN_USE}")
    same("the target", listed(target), {})
    held.ends()
    drains(trial, target, None)
    is_copied(trial, target)
