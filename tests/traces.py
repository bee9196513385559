"""How the system is called, as the library between the program and its calls logs it."""

import os
import re

from trial import check, same, true

# The kinds of calls that change which names a folder has.
NAMING = {"create", "mkdir", "rename", "remove", "rmdir"}


def traced(trial, script):
    """The calls on files that a run makes, none of which fails."""
    ended, calls = trial.watched(script)
    same("the status", ended.status, 0)
    return [it for it in calls if isinstance(it.end, int)]


def named(calls):
    """The name behind the last slash of each call's path."""
    return [os.path.basename(it.path) for it in calls]


@check
def a_thousand_writes_are_a_thousand_calls_and_no_file_is_opened_twice(trial):
    script = "actor a\na open f\n" + "".join(f"a write {8 * i} text:{i:08d}\n" for i in range(1000)) + "a close\n"
    calls = traced(trial, script)
    log = "/hostdir.0/log.0.4294967297"
    same("calls that write to the log", sum(it.kind == "write" and it.path.endswith(log) for it in calls), 1000)
    opened = [it.path for it in calls if it.kind in ("open", "create")]
    kept = [it for it in opened if re.search(r"/(log|index)\.0\.\d+$", it)]
    same("logs and indices that were opened", (len(kept), len(set(kept))), (2, 2))


@check
def a_sync_syncs_the_log_before_the_index(trial):
    calls = traced(trial, "actor a\na open f\na write 0 text:hello\na sync\n")
    kept = [it for it in calls if it.kind in ("write", "sync") and re.search(r"/(log|index)\.0\.\d+$", it.path)]
    same("what is written and synced", [(it.kind, name.partition(".")[0]) for it, name in zip(kept, named(kept))],
         [("write", "log"), ("sync", "log"), ("write", "index"), ("sync", "index")])


@check
def each_folder_is_synced_after_the_last_change_of_its_names(trial):
    script = "actor a\na open f\na write 0 text:hello\na sync\na close\na open g\na close\n"
    changed, synced = {}, {}
    for place, it in enumerate(traced(trial, script)):
        if it.kind in NAMING:
            for path in (it.path, it.other):
                changed[os.path.dirname(path)] = place
        if it.kind == "sync":
            synced[it.path] = place
    root = str(trial.root)
    same("folders with names that are not synced",
         sorted(it for it in changed if it.startswith(root) and synced.get(it, -1) < changed[it]), [])
    true("the folders that were looked at are fewer than ten", len(changed) >= 10)
