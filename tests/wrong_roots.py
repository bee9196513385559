"""A folder that is no ROOT, but one within a ROOT or a part of it, named as ROOT by mistake: nothing is done, and what is stored stays readable.
And what can't be read: links, inputs and words."""

import os
import subprocess

from copies_in import USAGE, gets, puts, run
from engines_at import script
from imports import folder_of, lines_of
from trial import SECONDS, check, listed, same, true

CONTAINER = "it is a container; give the folder that holds it"
IN_CONTAINER = "it lies in a container; give the folder that holds that one"
MARKS = "it has the marks of a ROOT; give the folder that holds it"
IN_MARKS = "it lies in the marks of a ROOT; give the folder that holds them"
USED_ALONE = "it has marks of its own, so it or a folder before it was used alone"
# Folders that are no ROOT, below ROOT, and why.
WRONG = (("f", CONTAINER), ("f/hostdir.0", IN_CONTAINER), ("f/metadata", IN_CONTAINER), ("f/.", CONTAINER), (".plfs", MARKS), (".plfs/", MARKS))
# The name of the program, and words of a command.
COMMANDS = (("plfs", "ls"), ("plfs", "stat", "f"), ("plfs", "play"), ("plfs", "gen", "3"), ("plfs_copy", "get", "f"), ("plfs_copy", "put", "g"),
            ("plfs_check",), ("plfs_check", "f"), ("plfs_serve",))


def called(trial, program, *words):
    """Runs the program under this name: its status, and what it prints."""
    ended = subprocess.run([program, *map(os.fsencode, words)], executable=trial.program, stdin=subprocess.DEVNULL, stdout=subprocess.PIPE, stderr=subprocess.PIPE,
                           cwd=trial.folder, env={"PATH": os.environ.get("PATH", "/usr/bin:/bin"), "LANG": "C.UTF-8"}, timeout=SECONDS)
    return ended.returncode, ended.stdout.decode(), ended.stderr.decode("utf-8", "backslashreplace")


def refused(why, *places):
    return 4, "0 fault\n", f"plfs: {os.path.join(*map(str, places))}: {why}\n"


@check
def a_container_that_is_named_as_root_is_refused_and_nothing_is_touched(trial):
    puts(trial, b"hello", "f")
    (trial.folder / "link").symlink_to(trial.root / "f")
    (trial.folder / "other").mkdir()
    before = listed(trial.root)
    for place, why in WRONG:
        for program, *words in COMMANDS:
            same(f"{program} {words} in {place}", called(trial, program, f"{trial.root}/{place}", *words), refused(why, trial.root, place))
        same(f"{place} as the second of two", called(trial, "plfs", f"{trial.folder}/other:{trial.root}/{place}", "ls"), refused(why, trial.root, place))
    same("a link to it", called(trial, "plfs", trial.folder / "link", "ls"), refused(CONTAINER, trial.folder, "link"))
    same("ROOT", listed(trial.root), before)
    same("the other folder", os.listdir(trial.folder / "other"), [])
    gets(trial, b"hello")


@check
def a_container_that_is_named_as_the_target_of_a_drain_or_an_export_or_as_an_engines_folder_is_refused(trial):
    puts(trial, b"hello", "f")
    before = listed(trial.root)
    for place, why in WRONG:
        same(f"a drain to {place}", called(trial, "plfs", trial.root, "drain", "f", f"{trial.root}/{place}"), refused(why, trial.root, place))
        status, out, err = refused(why, trial.root, place)
        same(f"an export to {place}", called(trial, "plfs_copy", trial.root, "export", f"{trial.root}/{place}"), (6, "", err))
        same(f"an engine at {place}", called(trial, "plfs_serve", trial.root, "--at", f"{trial.root}/{place}"), (status, out, err))
    same("ROOT", listed(trial.root), before)
    gets(trial, b"hello")


@check
def the_root_script_makes_no_pipe_in_a_folder_by_which_no_engine_serves(trial):
    puts(trial, b"hello", "f")
    serve, door = script(trial), trial.folder / "door"
    door.mkdir()
    for name in ("g", ".hidden"):
        (trial.root / name).mkdir()
    away, within = trial.folder / "away", "it lies in ROOT, where each folder is a file; give a folder beside ROOT"
    wrong = [
        *((trial.root, trial.root / place, why) for place, why in WRONG if not place.endswith("/.")),
        (trial.root, trial.root / ".plfs" / "mounts", IN_MARKS),
        (trial.root, trial.root, "it is a folder of ROOT; give a folder beside it"),
        (f"{door}:{trial.root}", trial.root, "it is a folder of ROOT; give a folder beside it"),
        (trial.root, trial.root / "g", within),
    ]
    before = listed(trial.root)

    def serves(*words):
        ended = subprocess.run([serve, *map(str, words)], stdin=subprocess.DEVNULL, stdout=subprocess.PIPE, stderr=subprocess.PIPE, timeout=SECONDS)
        same(f"what is left by {words}", (listed(trial.root), os.listdir(door)), (before, []))
        return ended.returncode, ended.stderr.decode()

    for root, place, why in wrong:
        same(f"an engine at {place}", serves(root, "--at", place), (4, f"plfs: {place}: {why}\n"))
    for root in (away, f"{trial.root}:{away}"):
        same(f"an engine on {root}", serves(root, "--at", door), (4, f"plfs: {away}: list: No such file or directory (os error 2)\n"))
    same("an engine at no folder", serves(trial.root, "--at", away), (4, f"plfs: {away}: list: No such file or directory (os error 2)\n"))
    for words in ((trial.root, "--at", door, "x"), (trial.root, "--at", door, 1, 2), (trial.root, "--at", door, ""), ("", "--at", door), (trial.root, "--at")):
        same(f"the status of {words}", serves(*words), (2, ""))
    gets(trial, b"hello")


@check
def the_root_script_refuses_what_lies_in_the_marks_of_a_root(trial):
    puts(trial, b"hello", "f")
    serve, marks = script(trial), trial.root / ".plfs" / "mounts"
    for name in ("plfs_copy", "plfs_check"):
        (serve.parent / name).symlink_to("plfs")
    (trial.folder / "other").mkdir()
    before = listed(trial.root)
    calls = [("plfs", marks, "ls"), ("plfs", f"{trial.folder}/other:{marks}", "ls"), ("plfs_copy", marks, "get", "f"), ("plfs_check", marks), ("plfs_serve", marks),
             ("plfs", trial.root, "drain", "f", marks), ("plfs_copy", trial.root, "export", marks)]
    for name, *words in calls:
        ended = subprocess.run([serve.parent / name, *words], stdin=subprocess.DEVNULL, stdout=subprocess.PIPE, stderr=subprocess.PIPE, timeout=SECONDS)
        same(f"the end of {name} {words}", (ended.returncode, ended.stdout, ended.stderr.decode()), (4, b"", f"plfs: {marks}: {IN_MARKS}\n"))
    ended = subprocess.run([serve.parent / "plfs", ".", "ls"], cwd=marks, stdout=subprocess.PIPE, stderr=subprocess.PIPE, timeout=SECONDS)
    same("the end within", (ended.returncode, ended.stderr.decode()), (4, f"plfs: .: {IN_MARKS}\n"))
    same("what is there", listed(trial.root), before)
    gets(trial, b"hello")


@check
def a_folder_with_a_file_of_the_name_access_that_has_bytes_is_a_root(trial):
    (trial.folder / "access").write_bytes(b"a log")
    puts(trial, b"hello", "f")
    gets(trial, b"hello")
    (trial.folder / "access").write_bytes(b"")
    same("below an empty one", called(trial, "plfs", trial.root, "ls"), refused(IN_CONTAINER, trial.root))


@check
def one_of_several_folders_that_is_used_alone_is_refused_until_its_marks_are_taken_away(trial):
    folders = [trial.folder / name for name in "ab"]
    for folder in folders:
        folder.mkdir()
    both = ":".join(map(str, folders))
    same("put", run(trial, "put", "f", root=both, content=b"hello")[0], 0)
    same("a look at the first one alone", called(trial, "plfs", folders[0], "ls")[0], 0)
    same("cat of both", called(trial, "plfs", both, "cat", "f"), (0, "hello", ""))
    same("a look at the second one alone", called(trial, "plfs", folders[1], "ls")[0], 0)
    for program, *words in COMMANDS:
        same(f"{program} {words} of both", called(trial, program, both, *words), refused(USED_ALONE, folders[1]))
    (folders[1] / ".plfs").rename(trial.folder / "away")
    same("cat of both", called(trial, "plfs", both, "cat", "f"), (0, "hello", ""))
    same("the first one twice", called(trial, "plfs", f"{folders[0]}:{folders[0]}", "ls"), refused("it is named twice", folders[0]))


@check
def a_link_that_can_not_be_followed_is_left_out_of_an_import(trial):
    for name, target in (("loop", "loop"), ("through", "a/below"), ("long", 300 * "x"), ("closed", "shut/in")):
        folder = folder_of(trial, {"a": b"a", "z": b"z"}, f"in.{name}")
        (folder / "shut").mkdir(0o000)
        (folder / name).symlink_to(target)
        status, out, err = run(trial, "import", str(folder), "--over")
        same("what is put", (status, [line[0] for line in lines_of(out)]), (1, ["a", "z"]))
        same("what is left out", sorted(err.splitlines()), sorted([f"plfs: {folder}/{name}: left out: it leads nowhere", f"plfs: {folder}/shut: left out: it is no plain file"]))
    gets(trial, b"a", "a")


@check
def an_entry_that_can_not_be_looked_at_ends_an_import_and_is_named(trial):
    folder = folder_of(trial, {"a": b"a"})
    folder.chmod(0o600)
    try:
        same("the end", run(trial, "import", str(folder)), (5, b"", f"plfs: {folder}/a: look: Permission denied (os error 13)\n"))
    finally:
        folder.chmod(0o700)
    trial.is_untouched()


@check
def an_input_of_which_no_byte_can_be_read_takes_nothing_from_the_file_that_it_would_replace(trial):
    puts(trial, b"hello", "f")
    before = listed(trial.root)
    (trial.folder / "in").write_bytes(b"more")
    no_bytes = f"plfs: {trial.folder}: open: Is a directory (os error 21)\n"
    same("a folder behind --from", run(trial, "put", "f", "--over", "--from", str(trial.folder)), (5, b"", no_bytes))
    same("a folder behind a file", run(trial, "put", "f", "--over", "--from", str(trial.folder / "in"), str(trial.folder)), (5, b"", no_bytes))
    with open(trial.folder / "out", "wb") as out:
        same("an input that is open for writing alone", run(trial, "put", "f", "--over", stdin=out),
             (5, b"", "plfs: standard input: read: Bad file descriptor (os error 9)\n"))
    folder = os.open(trial.folder, os.O_RDONLY)
    try:
        same("a folder as standard input", run(trial, "put", "f", "--over", stdin=folder), (5, b"", "plfs: standard input: read: Is a directory (os error 21)\n"))
    finally:
        os.close(folder)
    same("ROOT", listed(trial.root), before)
    gets(trial, b"hello")


@check
def words_that_are_no_text_print_the_usage_of_the_program_that_was_called(trial):
    for program in ("plfs", "plfs_copy", "plfs_check", "plfs_serve"):
        for place in range(3):
            words = [str(trial.root), "put", "f"]
            words[place] = b"\xff"
            for name in (program, f"/a b/{program}"):
                status, out, err = called(trial, name, *words)
                same(f"the end of {name}", (status, err), (2, ""))
                true(f"it printed {out!r}", out.startswith(f"usage: {program} ROOT") and out.count("\n") == 1)
    same("plfs_copy", called(trial, "plfs_copy", b"\xff")[1], USAGE)
    trial.is_untouched()
