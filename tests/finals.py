"""What failed to be synced is never told as synced by the same run: the system may have dropped its bytes."""

from trial import READ, WORK, check, same, true

AGAIN = WORK.replace("a sync\n", "a sync\na write 5 text:there\na sync\n")
# The script, the item and which of its syncs fails, and what its lines are from the first sync on.
TOLD = [
    (WORK.replace("a sync\n", "a sync\na sync\n"), "log", 1, ["fault", "fault", "fault"]),
    (WORK.replace("a sync\n", "a sync\na sync\n"), "index", 1, ["fault", "fault", "fault"]),
    (WORK.replace("a sync\n", ""), "log", 1, ["fault"]),
    (WORK.replace("a sync\n", ""), "index", 1, ["fault"]),
    (AGAIN, "log", 1, ["fault", "wrote 5 5 STAMP", "fault", "fault"]),
    (AGAIN, "index", 2, ["synced 1", "wrote 5 5 STAMP", "fault", "fault"]),
    (AGAIN.replace("a close", "a flatten f"), "log", 2, ["synced 1", "wrote 5 5 STAMP", "fault", "fault"]),
    (AGAIN.replace("a close", "a flatten f"), "index", 2, ["synced 1", "wrote 5 5 STAMP", "fault", "fault"]),
]


@check
def a_file_that_failed_to_be_synced_is_not_told_as_synced_or_closed_by_the_same_run(trial):
    for number, (script, item, which, wanted) in enumerate(TOLD):
        trial.root = trial.folder / f"root{number}"
        trial.root.mkdir()
        ended, calls = trial.watched(script, f"fail EIO sync {which} {trial.root}/f/*/{item}.*")
        told = [line.partition(" ")[2] for line in ended.out.splitlines()[2:]]
        same(f"the lines with {item} failed", (ended.status, told), (4, wanted))
        true(f"standard error is {ended.err!r}", ended.err.count("\n") == 1 and f"/{item}." in ended.err)
        same("syncs behind the one that failed", [it.end for it in calls if it.kind == "sync" and f"/{item}." in it.path][which:], [])
        # A run of its own may find the bytes or not, and finds no damage.
        after = trial.ends(0, "", words=("recover", "f"))
        true(f"what is recovered is {after.out!r}", " alive - " in after.out)
        trial.ends(0, READ)


@check
def what_failed_to_be_synced_of_one_writer_is_nothing_to_another(trial):
    script = "actor a\nactor b 1\na open f\nb open f\na write 0 text:aaaaa\nb write 5 text:bbbbb\na sync\nb sync\na close\nb close\n"
    ended, _ = trial.watched(script, f"fail EIO sync 1 {trial.root}/f/*/log.0.*")
    told = [line.partition(" ")[2] for line in ended.out.splitlines()[4:]]
    same("the lines", (ended.status, told), (4, ["fault", "synced 1", "fault", "closed 1"]))


@check
def another_run_syncs_what_one_failed_to(trial):
    trial.watched(WORK, f"fail EIO sync 1 {trial.root}/f/*/log.*")
    trial.ends(0, WORK.replace("write 0 text:hello", "write 5 text:there"))
    trial.ends(0, "", words=("recover", "f"))
    trial.ends(0, "", words=("flatten", "f"))
