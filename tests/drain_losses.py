"""Drains whose target loses power, fills up, can't be written or goes away, and logs of many lengths."""

import os
import shutil
import signal

from drains import OVERLAP, droppings, drains, is_copied, target_of
from faults import UNSYNCED
from locks import Held
from several import THREE, made as several_made
from soundness import is_sound
from trial import SECONDS, check, listed, same, true

# The most bytes that a drain reads of a log at once.
PART = 1 << 18
# Behind a first drain two writers come, one of which has synced twice and doesn't close.
LATER = "actor x 3\nactor y 3\nx open f\nx write 2 text:CCC\nx sync\nx write 9 text:D\nx sync\ny open f\ny write 5 text:EE\ny close\n"


class Losses:
    """What a loss of power would leave of a folder at the least: names that were synced in their folders, and of each file the
    bytes that were. It follows the calls that one program made below a folder."""

    def __init__(self, root):
        self.root = str(root)
        was = listed(root)
        self.folders = {".", *(path for path, it in was.items() if it is None)}
        self.size = {path: len(it) for path, it in was.items() if it is not None}
        self.named, self.kept = set(was), dict(self.size)

    def moved(self, it, path, to):
        return to + it[len(path):] if it == path or it.startswith(f"{path}/") else it

    def follows(self, call):
        path = os.path.relpath(call.path, self.root)
        if call.kind == "mkdir":
            self.folders.add(path)
        elif call.kind == "create":
            self.size.setdefault(path, 0)
        elif call.kind == "write":
            self.size[path] = max(self.size[path], int(call.more[0]) + call.end)
        elif call.kind == "rename":
            to = os.path.relpath(call.other, self.root)
            self.folders = {self.moved(it, path, to) for it in self.folders}
            self.named = {self.moved(it, path, to) for it in self.named if it != path}
            for sizes in (self.size, self.kept):
                for it in [it for it in sizes if it.startswith(f"{path}/")]:
                    sizes[self.moved(it, path, to)] = sizes.pop(it)
        elif call.kind == "sync" and path in self.folders:
            self.named |= {it for it in (*self.folders, *self.size) if (os.path.dirname(it) or ".") == path and it != "."}
        elif call.kind == "sync":
            self.kept[path] = self.size[path]

    def left(self, whole, place):
        """Puts what is left into a new folder, by the bytes that the files have in the end."""
        place.mkdir()
        for path in sorted(self.named, key=lambda it: it.count("/")):
            # What lies in a folder that isn't left is not left either.
            if not (place / path).parent.is_dir():
                continue
            if path in self.folders:
                (place / path).mkdir()
            else:
                (place / path).write_bytes(whole[path][: self.kept.get(path, 0)])


def losses_of_a_drain(trial, target):
    """Drains, and behind each of its calls asks what a loss of power would leave: a sound folder, which the next drain makes whole."""
    losses = Losses(target)
    ended, calls = trial.watched("", UNSYNCED, words=("drain", "f", str(target)))
    same(f"the status ({ended.err!r})", ended.status, 0)
    whole, seen, was = listed(target), 0, None
    for call in calls:
        if not isinstance(call.end, int) or not call.path.startswith(str(target)):
            continue
        losses.follows(call)
        if (losses.named, losses.kept) == was:
            continue
        seen, was = seen + 1, (set(losses.named), dict(losses.kept))
        what, place = f"behind {call.kind} of {call.path.removeprefix(str(target))}", trial.folder / f"left{seen}"
        losses.left(whole, place)
        true(f"what a loss {what} leaves is not sound", is_sound(place))
        drains(trial, place, None, **trial.watch([UNSYNCED], "after"))
        same(f"the droppings after a loss {what}", droppings(place), droppings(trial.root))
        shutil.rmtree(place)
    same("the files whose bytes are not all synced", {it for it in losses.size if losses.size[it] != losses.kept.get(it, 0)}, set())
    same("the names that are not synced", (losses.folders | set(losses.size)) - losses.named, {"."})
    return seen


@check
def what_a_loss_of_power_behind_any_call_of_a_drain_leaves_is_sound_and_the_next_drain_makes_it_whole(trial):
    target = target_of(trial)
    trial.ends(0, OVERLAP)
    trial.ends(0, "", words=("trunc", "f", "3"))
    seen = losses_of_a_drain(trial, target)
    true(f"a first drain has {seen} moments", seen > 15)
    trial.ends(0, LATER)
    seen = losses_of_a_drain(trial, target)
    true(f"a second drain has {seen} moments", seen > 8)
    is_copied(trial, target)


@check
def a_target_that_fills_up_at_any_call_is_a_fault_and_with_room_the_next_drain_copies_the_rest(trial):
    trial.ends(0, OVERLAP)
    probe = target_of(trial, "probe")
    _, calls = trial.watched("", UNSYNCED, words=("drain", "f", str(probe)))
    for kind in ("write", "create", "mkdir"):
        count = sum(it.kind == kind and it.path.startswith(str(probe)) for it in calls)
        true(f"calls of {kind}", count > 2)
        for number in range(1, count + 1):
            target = target_of(trial, f"{kind}{number}")
            ended, _ = trial.watched("", f"fail ENOSPC {kind} {number}+ {target}*", UNSYNCED, words=("drain", "f", str(target)))
            same(f"{kind} {number}: the end", (ended.status, ended.out), (4, "0 fault\n"))
            true(f"{kind} {number}: {ended.err!r}", ended.err.startswith(f"plfs: {target}") and "No space left on device" in ended.err)
            true(f"{kind} {number}: what is left is not sound", is_sound(target))
            drains(trial, target, None, **trial.watch([UNSYNCED], "after"))
            same(f"{kind} {number}: the droppings", droppings(target), droppings(trial.root))


@check
def a_target_on_a_file_system_that_is_read_only_is_a_fault_and_stays_as_it_was(trial):
    trial.ends(0, OVERLAP)
    target = target_of(trial)
    for later in ("", LATER):
        if later:
            drains(trial, target, "drained 2 2 6\n")
            trial.ends(0, later)
        before = listed(target)
        rules = [f"fail EROFS {kind} 1+ {target}*" for kind in ("create", "mkdir", "write", "rename", "remove", "rmdir", "cut")]
        ended, _ = trial.watched("", *rules, words=("drain", "f", str(target)))
        same("the end", (ended.status, ended.out), (4, "0 fault\n"))
        true(f"standard error: {ended.err!r}", ended.err.startswith(f"plfs: {target}") and "Read-only file system" in ended.err)
        same("the target", listed(target), before)
    drains(trial, target, None)
    is_copied(trial, target)


@check
def a_target_that_goes_away_while_it_is_drained_ends_the_drain_and_back_again_it_gets_the_rest(trial):
    trial.ends(0, OVERLAP)
    for number, (kind, place) in enumerate((("create", "f/openhosts/*"), ("write", "f/*/log.*"), ("sync", "f/*/index.*"))):
        target, away = target_of(trial, f"target{number}"), trial.folder / f"away{number}"
        held = Held(trial, "", kind, f"{target}/{place}", words=("drain", "f", str(target)))
        target.rename(away)
        held.go.touch()
        out, err = held.program.communicate(timeout=SECONDS)
        same(f"{kind}: the lines ({err!r})", out.count(b"\n"), 1)
        true(f"{kind}: it ended with {held.program.returncode} and {out!r}", held.program.returncode in (4, 7))
        same(f"{kind}: the target is there", target.exists(), False)
        away.rename(target)
        true(f"{kind}: what is left is not sound", is_sound(target))
        drains(trial, target, None)
        is_copied(trial, target)


@check
def a_container_of_several_folders_is_drained_to_one(trial):
    _, root = several_made(trial)
    trial.ends(0, THREE, root)
    target = target_of(trial)
    for name in "fgh":
        drains(trial, target, "drained 1 1 2\n", name=name, root=root)
        drains(trial, target, "drained 0 0 0\n", name=name, root=root)
        trial.ends(0, "", target, words=("cat", name), lines=name * 2)


def of_lengths(lengths):
    """A script of a writer for each length, whose log gets it by writes of other bytes each."""
    lines = [f"actor a{number} {number}" for number in range(len(lengths))]
    for number, length in enumerate(lengths):
        lines.append(f"a{number} open f")
        for part in range(0, length, 50000):
            lines.append(f"a{number} write {(number << 20) + part} fill:{min(50000, length - part)}:{(7 * number + part // 50000) % 251 + 1}")
    return "\n".join([*lines, *(f"a{number} close" for number in range(len(lengths))), ""])


@check
def logs_of_any_length_are_copied_by_parts_and_behind_a_kill_from_where_they_end(trial):
    lengths = [1, PART - 1, PART, PART + 1, 3 * PART + 5]
    trial.ends(0, of_lengths(lengths))
    target = target_of(trial)
    words = ("drain", "f", str(target))
    ended, _ = trial.watched("", f"kill 9 write 2 {target}/f/*/log.*", words=words)
    same("the status of the kill", ended.status, -signal.SIGKILL)
    have = sum(len(it) for path, it in droppings(target).items() if "/log." in path)
    true(f"{have} bytes were copied", have > 0)
    _, calls = trial.watched("", words=words)
    read = [it for it in calls if it.kind == "read" and "/log." in it.path]
    same("bytes that are read", sum(it.end for it in read), sum(lengths) - have)
    same("the longest read", max(it.end for it in read), PART)
    is_copied(trial, target)
