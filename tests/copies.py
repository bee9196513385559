"""Containers that were copied to where the marks of their runs are not: their bytes are never written over."""

import shutil

from trial import WORK, check, listed, same, true

CAUSE = ": would overwrite bytes of an earlier run\n"


def copied(trial, *left_out):
    """A ROOT without marks that has a copy of a container that a run in another ROOT made, without these items."""
    trial.ends(0, WORK)
    other = trial.folder / "other"
    shutil.rmtree(other, ignore_errors=True)
    other.mkdir()
    shutil.copytree(trial.root / "f", other / "f")
    for item in left_out:
        next((other / "f" / "hostdir.0").glob(f"{item}.*")).unlink()
    return other


def kept_of(root):
    """The logs and indices of a ROOT's containers, with their bytes."""
    return {path: content for path, content in listed(root).items() if "/hostdir." in path and content is not None}


@check
def a_container_without_the_marks_of_its_runs_is_not_written_over(trial):
    for left_out in ((), ("index",), ("log",)):
        for words in (("play",), ("run",)):
            other = copied(trial, *left_out)
            before = kept_of(other)
            ended = trial.run(WORK.replace("text:hello", "text:other"), other, words=words)
            same(f"the status ({ended.out!r})", ended.status, 4)
            true(f"no fault is told: {ended.out!r}", " fault\n" in ended.out)
            true(f"the reason is {ended.err!r}", ended.err.startswith(f"plfs: {other}/f/hostdir.0/") and ended.err.endswith(CAUSE))
            after = kept_of(other)
            same("the old bytes", {path: after.get(path) for path in before}, before)
            shutil.rmtree(trial.root)
            trial.root.mkdir()


@check
def a_root_that_lost_its_marks_keeps_its_bytes(trial):
    trial.ends(0, WORK)
    before = kept_of(trial.root)
    shutil.rmtree(trial.root / ".plfs")
    ended = trial.run(WORK.replace("text:hello", "text:other"))
    same(f"the status ({ended.out!r})", ended.status, 4)
    true(f"the reason is {ended.err!r}", ended.err.endswith(CAUSE))
    same("the old bytes", kept_of(trial.root), before)


@check
def a_copied_container_is_written_again_once_its_marks_are_there(trial):
    other = copied(trial)
    (other / ".plfs" / "mounts").mkdir(parents=True)
    (other / ".plfs" / "mounts" / "1").touch()
    trial.ends(0, WORK.replace("write 0", "write 5"), other)
    trial.holds(b"hellohello", other)
