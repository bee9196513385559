"""Symbolic links below ROOT: nothing outside ROOT may change, and a link is a fault."""

from trial import READ, WORK, WORKED, check, listed, same, true

# The first id of the second run on one folder.
SECOND = 2 * 2**32 + 1


def outside(trial):
    """A folder beside ROOT with a file in it and a container's folders, and what lies there."""
    place = trial.folder / "outside"
    for name in ("", "openhosts", "metadata", "truncs", "flats", "hostdir.0"):
        (place / name).mkdir()
    (place / "victim").write_text("not yours, and longer than a write")
    return place, listed(place)


def is_refused(trial, place, before, script=WORK):
    """The script must fail, and nothing outside ROOT may change."""
    ended = trial.run(script)
    same("what lies outside ROOT", listed(place), before)
    same(f"the status ({ended.out!r})", ended.status, 4)


def planted(trial, item, target):
    """Plants a link at an item of the container that a first run made, in place of what is there, and runs a second."""
    trial.ends(0, WORK, lines=WORKED)
    place, before = outside(trial)
    at = trial.root / "f" / item
    if at.is_dir():
        at.rename(trial.folder / "moved")
    at.symlink_to(place / target)
    is_refused(trial, place, before)


@check
def a_link_at_the_next_log_is_a_fault_and_is_not_followed(trial):
    planted(trial, f"hostdir.0/log.0.{SECOND}", "victim")


@check
def a_link_at_the_next_index_is_a_fault_and_is_not_followed(trial):
    planted(trial, f"hostdir.0/index.0.{SECOND}", "victim")


@check
def a_link_to_nothing_at_the_next_log_is_a_fault_and_is_not_followed(trial):
    planted(trial, f"hostdir.0/log.0.{SECOND}", "new")


@check
def a_link_as_the_folder_of_logs_is_a_fault_and_is_not_followed(trial):
    planted(trial, "hostdir.0", "hostdir.0")


@check
def a_link_as_the_folder_of_open_writers_is_a_fault_and_is_not_followed(trial):
    planted(trial, "openhosts", "openhosts")


@check
def a_link_as_the_folder_of_metadata_is_a_fault_and_is_not_followed(trial):
    planted(trial, "metadata", "metadata")


@check
def a_reader_follows_no_link_at_a_log(trial):
    trial.ends(0, WORK, lines=WORKED)
    log = trial.root / "f" / "hostdir.0" / "log.0.4294967297"
    log.rename(trial.folder / "log")
    log.symlink_to(trial.folder / "log")
    ended = trial.run(READ)
    same(f"the status ({ended.out!r})", ended.status, 4)


@check
def a_link_as_a_container_is_no_container(trial):
    place, before = outside(trial)
    (trial.root / "f").symlink_to(place)
    trial.ends(1, "actor a\na ropen f\n", lines="2 refused no-file\n")
    is_refused(trial, place, before)


@check
def a_link_as_the_folder_of_marks_is_not_followed(trial):
    place, before = outside(trial)
    (place / "mounts").mkdir()
    before = listed(place)
    (trial.root / ".plfs").symlink_to(place)
    is_refused(trial, place, before)


@check
def a_link_among_the_marks_is_not_followed(trial):
    trial.ends(0, WORK, lines=WORKED)
    place, before = outside(trial)
    mounts = trial.root / ".plfs" / "mounts"
    mounts.rename(trial.folder / "mounts")
    mounts.symlink_to(place)
    is_refused(trial, place, before)


@check
def a_link_at_a_leftover_of_making_is_not_followed(trial):
    place, before = outside(trial)
    for k in range(4):
        (trial.root / f".new.{k}").symlink_to(place)
    ended = trial.run(WORK)
    same("what lies outside ROOT", listed(place), before)
    true(f"the status is {ended.status}", ended.status in (0, 4))
