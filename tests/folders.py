"""What lies in ROOT, folders that can't be used, limits of the system, and names of ROOT."""

import os
import re
import resource
import signal
import struct
import time

from trial import READ, Skipped, WORK, WORKED, check, ignore, listed, same, size_limit, true

# One actor writes, closes and reads back.
BACK = WORK + "a ropen f\na read 0 5\n"


@check
def a_container_has_its_files_and_no_others(trial):
    trial.ends(0, BACK, lines=WORKED + "6 reader 5 cut 4294967297:1 trunc -\n7 read 0 68656c6c6f\n")
    found = listed(trial.root)
    names = [re.fullmatch(r"f/metadata/5\.5\.(\d+)\.0\.4294967297", path) for path in found]
    stamps = [int(it[1]) for it in names if it]
    same("how many metadata droppings there are", len(stamps), 1)
    folders = [".plfs", ".plfs/mounts", *("f" + it for it in ("", "/flats", "/hostdir.0", "/metadata", "/openhosts", "/truncs"))]
    files = {
        ".plfs/mounts/1": b"",
        "f/access": b"",
        "f/hostdir.0/index.0.4294967297": struct.pack("<5Q", 0, 5, 0, stamps[0], 4294967297),
        "f/hostdir.0/log.0.4294967297": b"hello",
        f"f/metadata/5.5.{stamps[0]}.0.4294967297": b"",
    }
    same("what lies in ROOT", found, {**dict.fromkeys(folders), **files})


@check
def a_second_run_on_a_folder_sees_the_first(trial):
    trial.ends(0, BACK)
    lines = WORKED.replace("4294967297", "8589934593")
    trial.ends(0, BACK, lines=lines + "6 reader 5 cut 4294967297:1,8589934593:1 trunc -\n7 read 0 68656c6c6f\n")


@check
def writers_of_three_hosts_in_two_runs_are_one_file(trial):
    first = "actor a 9\nactor b 41\na open f\nb open f\na write 0 text:AAAA\nb write 2 text:BBBB\na close\nb close\n"
    trial.ends(0, first)
    second = "actor c 10\nactor r\nc open f\nc write 5 text:CC\nc sync\nr ropen f 3\nr read 0 9\n"
    told = "3 open 8589934593\n4 wrote 5 2 STAMP\n5 synced 1\n"
    cut = "4294967297:1,4294967298:1,8589934593:1"
    trial.ends(0, second, lines=told + f"6 reader 7 cut {cut} trunc -\n7 read 0 41414242424343\n")
    logs = sorted(path.removeprefix("f/") for path in listed(trial.root) if "/log." in path)
    same("the logs", logs, ["hostdir.10/log.10.8589934593", "hostdir.9/log.41.4294967298", "hostdir.9/log.9.4294967297"])


@check
def a_file_in_the_place_of_a_container_is_a_fault_and_stays(trial):
    (trial.root / "f").write_text("mine")
    refused = "".join(f"{number} refused not-open\n" for number in (3, 4, 5))
    trial.ends(4, BACK, lines=f"2 fault\n{refused}6 refused no-file\n7 refused not-open\n")
    same("the file", (trial.root / "f").read_text(), "mine")
    same("the names in ROOT", sorted(it.name for it in trial.root.iterdir()), [".plfs", "f"])


@check
def a_root_under_a_file_is_a_fault(trial):
    (trial.folder / "file").write_text("mine")
    trial.ends(4, WORK, trial.folder / "file" / "store", lines="0 fault\n")
    same("the file", (trial.folder / "file").read_text(), "mine")


@check
def a_missing_root_is_a_fault_and_is_not_made(trial):
    trial.ends(4, WORK, trial.folder / "away", lines="0 fault\n")
    true("ROOT was made", not (trial.folder / "away").exists())


@check
def a_file_as_root_is_a_fault_and_is_left_as_it_was(trial):
    place = trial.folder / "file"
    place.write_text("mine")
    trial.ends(4, WORK, place, lines="0 fault\n")
    same("the file", place.read_text(), "mine")


@check
def a_root_without_permission_is_a_fault(trial):
    for mode in (0o000, 0o500):
        trial.root.chmod(mode)
        try:
            trial.ends(4, WORK, lines="0 fault\n")
        finally:
            trial.root.chmod(0o700)
    trial.is_untouched()


@check
def a_folder_of_a_container_without_permission_is_a_fault_of_its_statement(trial):
    trial.ends(0, WORK)
    folder = trial.root / "f" / "openhosts"
    folder.chmod(0o500)
    try:
        trial.ends(4, WORK, lines="2 fault\n3 refused not-open\n4 refused not-open\n5 refused not-open\n")
    finally:
        folder.chmod(0o700)
    trial.holds()


@check
def a_limit_on_the_size_of_files_is_a_fault_and_what_was_synced_stays(trial):
    trial.ends(0, WORK)
    many = "actor a\na open f\n" + "".join(f"a write {5 + 8 * i} text:{i:08d}\na sync\n" for i in range(200))
    limits = [(ignore, signal.SIGXFSZ), (size_limit, 1024)]
    ended = trial.ends(4, many, limits=limits)
    same("the last line", ended.out.splitlines()[-1].partition(" ")[2], "fault")
    told = [int(line.split()[2]) for line in ended.out.splitlines() if " synced " in line]
    true("nothing was synced below the limit", told and told[-1] > 0)
    shown = bytes.fromhex(trial.ends(0, "actor a\na ropen f\na read 0 1048576\n").out.split()[-1])
    wanted = b"hello" + b"".join(b"%08d" % i for i in range(told[-1]))
    same("what is read back up to the last sync", shown[: len(wanted)], wanted)


@check
def a_limit_on_the_size_of_files_that_stops_the_program_keeps_what_was_there(trial):
    trial.ends(0, WORK)
    ended = trial.run(WORK.replace("write 0 text:hello", "write 5 text:" + "x" * 100), limits=[(size_limit, 50)])
    true(f"it ended with {ended.status}", ended.status in (4, -signal.SIGXFSZ))
    trial.holds()


@check
def where_memory_is_refused_the_status_is_3_and_what_was_synced_stays(trial):
    trial.ends(0, WORK)
    text = "x" * 900000
    script = "actor a\na open g\na write 0 text:" + text + "\na sync\na close\na ropen g\na read 0 1048576\n"
    seen = set()
    for mebibytes in (8, 10, 12, 14, 16, 20, 24, 32, 48, 512):
        seen.add(trial.run(script, limits=[(memory_limit, mebibytes * 2**20)]).status)
    same("the statuses", sorted(seen), [0, 3])
    trial.holds()


def memory_limit(most):
    resource.setrlimit(resource.RLIMIT_AS, (most, most))


@check
def odd_names_of_root_are_served(trial):
    names = ["with space", " ", "-dash", "--help", "ünïcödé", "日本", "line\nfeed", "'\"$HOME*", ".hidden", "back\\slash"]
    for name in names:
        place = trial.folder / "odd" / name
        place.mkdir(parents=True)
        trial.ends(0, WORK, name, cwd=trial.folder / "odd", lines=WORKED)
        trial.holds(root=place)


@check
def roots_by_other_paths_are_served(trial):
    (trial.folder / "link").symlink_to("root")
    (trial.folder / "deep").mkdir()
    trial.ends(0, WORK, "root/", lines=WORKED)
    for root in ["root", "./root", "root//", "link", "link/", "deep/../root", str(trial.root) + "/."]:
        trial.holds(root=root)
    same("what is read back at .", trial.ends(0, READ, ".", cwd=trial.root).out.splitlines()[1], "3 read 0 68656c6c6f")


@check
def words_that_are_no_text_print_the_usage_line(trial):
    place = os.fsencode(trial.folder) + b"/\xff"
    os.mkdir(place)
    ended = trial.ends(2, WORK, place)
    true(f"it printed {ended.out!r}", ended.out.startswith("usage: plfs ROOT "))
    same("what lies in ROOT", os.listdir(place), [])


@check
def foreign_files_and_folders_in_root_are_passed_over_and_kept(trial):
    (trial.root / "notes.txt").write_text("mine")
    (trial.root / "lost+found").mkdir()
    (trial.root / "lost+found" / "x").write_text("mine too")
    (trial.root / ".git").mkdir()
    before = listed(trial.root)
    trial.ends(0, WORK, lines=WORKED)
    trial.holds()
    after = listed(trial.root)
    same("the foreign files", {path: after.get(path) for path in before}, before)


@check
def a_name_in_root_that_is_too_long_is_a_fault(trial):
    (trial.root / ("x" * 97)).mkdir()
    trial.ends(4, WORK, lines="0 fault\n")
    same("what lies in ROOT", sorted(listed(trial.root)), ["x" * 97])


@check
def a_name_in_root_that_is_no_text_is_a_fault(trial):
    os.mkdir(os.fsencode(trial.root) + b"/\xff")
    trial.ends(4, WORK, lines="0 fault\n")


@check
def a_flattened_index_of_8_TiB_that_is_none_is_damage_at_once(trial):
    trial.ends(0, WORK)
    index = trial.root / "f" / "flats" / "5"
    for head, place in ((b"", 0), (b"PLFSFLT1" + struct.pack("<2Q", 1, 1), 8)):
        index.write_bytes(head)
        try:
            os.truncate(index, 2**43)
        except OSError as why:
            raise Skipped(f"no file of 8 TiB: {why.strerror}") from None
        begin = time.monotonic()
        trial.ends(7, READ, lines=f"2 damaged flats/5 {place}\n3 refused not-open\n")
        taken = time.monotonic() - begin
        true(f"it took {taken:.1f} seconds to find the damage at {place}", taken < 1)
        index.unlink()
