"""Two programs at once: the second finds ROOT in use, and touches nothing."""

import subprocess
import time

from trial import READ, SECONDS, WORK, WORKED, check, listed, same, true

IN_USE = ": in use by another program\n"
# What asks for ROOT while another program has it: reading alone is no exception.
ASKING = [(WORK, ("play",)), (WORK, ("run",)), (READ, ("play",)), *(("", words) for words in (
    ("ls",), ("stat", "f"), ("map", "f"), ("flatten", "f"), ("recover", "f"), ("migrate", "f"), ("trunc", "f", "1"), ("rename", "f", "g"), ("gen", "1")))]
# The kinds of calls that change what lies in a folder.
CHANGING = {"create", "write", "cut", "rename", "remove", "mkdir", "rmdir"}

PAIRS = 300
WRITES = 20000


class Held:
    """A program that is at work on ROOT, and waits before its call of this kind on this path until it is let go on."""

    def __init__(self, trial, script, kind, place, root=None, words=("play",)):
        self.trial, self.go, self.here = trial, trial.folder / "go", trial.folder / "here"
        for path in (self.go, self.here):
            path.unlink(missing_ok=True)
        rules = [f"make {self.here} {kind} 1 {place}", f"await {self.go} {kind} 1 {place}"]
        self.program = trial.start(script, root, words, **trial.watch(rules, "held"))
        end = time.monotonic() + SECONDS
        while not self.here.exists():
            true("the first program doesn't come to its call", time.monotonic() < end and self.program.poll() is None)
            time.sleep(0.001)

    def ends(self):
        """Lets it go on, and returns its status and its lines."""
        self.go.touch()
        out, err = self.program.communicate(timeout=SECONDS)
        same("standard error of the first program", err, b"")
        return self.program.returncode, out.decode()


def is_in_use(trial, script, words, root, named=None):
    """This run must find ROOT in use, say so of this folder, and ask for no change."""
    ended, calls = trial.watched(script, root=root, words=words)
    lines = "" if words[0] == "gen" else "0 fault\n"
    same(f"the end of {words}", (ended.status, ended.err), (4, f"plfs: {named or root}{IN_USE}"))
    true(f"{words} printed {ended.out!r}", not lines or ended.out == lines)
    same(f"what {words} changed", [it for it in calls if it.kind in CHANGING and str(trial.folder) in it.path], [])


@check
def a_second_program_on_a_root_is_a_fault_and_touches_nothing(trial):
    trial.ends(0, WORK)
    for kind, place in (("create", ".plfs/mounts/*"), ("write", "f/*/log.*"), ("remove", "f/openhosts/*")):
        held = Held(trial, WORK, kind, f"{trial.root}/{place}")
        before = listed(trial.root)
        for script, words in ASKING:
            is_in_use(trial, script, words, trial.root)
        same("what lies in ROOT", listed(trial.root), before)
        status, out = held.ends()
        same("the end of the first program", (status, len(out.splitlines())), (0, 4))
    trial.holds()


@check
def a_run_leaves_no_file_beside_the_marks_and_its_containers(trial):
    trial.ends(0, WORK, lines=WORKED)
    same("what lies in ROOT", sorted(it.name for it in trial.root.iterdir()), [".plfs", "f"])
    same("what lies in .plfs", sorted(path for path in listed(trial.root) if path.startswith(".plfs/")), [".plfs/mounts", ".plfs/mounts/1"])


@check
def of_pairs_that_start_at_once_one_at_least_does_its_work_and_the_other_says_that_root_is_in_use(trial):
    made = []
    for turn in range(PAIRS):
        script = lambda which: f"actor a\na open f\na write {8 * (2 * turn + which)} text:{turn:07d}{'ab'[which]}\na close\n"
        pair = [trial.start(script(which)) for which in (0, 1)]
        ends = [it.communicate(timeout=SECONDS) for it in pair]
        for which, (it, (out, err)) in enumerate(zip(pair, ends)):
            what = (it.returncode, out.decode(), err.decode())
            if it.returncode == 0:
                made.append((turn, which))
            else:
                same(f"pair {turn}", what, (4, "0 fault\n", f"plfs: {trial.root}{IN_USE}"))
        true(f"pair {turn}: both found ROOT in use", 0 in [it.returncode for it in pair])
    shown = bytes.fromhex(trial.ends(0, f"actor a\na ropen f\na read 0 {16 * PAIRS}\n").out.split()[-1])
    content = bytearray(len(shown))
    for turn, which in made:
        place = 8 * (2 * turn + which)
        content[place : place + 8] = f"{turn:07d}{'ab'[which]}".encode()
    wrong = [place for place in range(0, len(content), 8) if shown[place : place + 8] != content[place : place + 8]]
    same("the places with other bytes", [(place, shown[place : place + 8], bytes(content[place : place + 8])) for place in wrong], [])
    marks = len(list((trial.root / ".plfs" / "mounts").iterdir()))
    same("the marks are those of the runs that were made", marks, len(made) + 1)


@check
def beside_a_long_writer_recoveries_and_migrations_take_nothing_from_it(trial):
    trial.ends(0, "actor a\na open f\na close\n")
    lines = ["actor a", "a open f"]
    for turn in range(WRITES):
        lines.append(f"a write {8 * turn} text:{turn:08d}")
        if turn % 500 == 499:
            lines.append("a sync")
    program = trial.start("\n".join([*lines, "a close", ""]), stdout=open(trial.folder / "out", "wb"))
    # Once its log is there, it has the lock.
    while len(list(trial.root.glob("f/hostdir.*/log.*"))) < 2 and program.poll() is None:
        time.sleep(0.002)
    refused = 0
    while program.poll() is None:
        for words in (("recover", "f"), ("migrate", "f")):
            ended = trial.run("", words=words)
            true(f"{words} ended with {ended}", ended.status == 0 or (ended.status, ended.err) == (4, f"plfs: {trial.root}{IN_USE}"))
            refused += ended.status == 4
    same("standard error of the writer", program.communicate()[1], b"")
    same("the writer's status", program.returncode, 0)
    true("no run came while it wrote", refused)
    same("its last line", (trial.folder / "out").read_text().splitlines()[-1].partition(" ")[2], f"closed {WRITES}")
    same("what is read back", trial.ends(0, "", words=("cat", "f")).out, "".join(f"{turn:08d}" for turn in range(WRITES)))


@check
def each_of_several_folders_is_in_use(trial):
    folders = [trial.folder / name for name in "ab"]
    for folder in folders:
        folder.mkdir()
    both = ":".join(map(str, folders))
    # By the sum of its name's bytes f goes to the first folder, and g to the second.
    held = Held(trial, WORK, "write", f"{folders[0]}/f/*/log.*", both)
    for root, named in ((folders[0], folders[0]), (folders[1], folders[1]), (both, folders[0]), (f"{folders[1]}:{folders[0]}", folders[1])):
        is_in_use(trial, "", ("ls",), root, named)
    same("the end of the first program", held.ends()[0], 0)
    for folder in folders:
        trial.ends(0, "", folder, words=("ls",))
    held = Held(trial, WORK, "write", f"{folders[1]}/f/*/log.*", folders[1])
    is_in_use(trial, "", ("ls",), both, folders[1])
    trial.ends(0, "", folders[0], words=("ls",))
    same("the end of the first program", held.ends()[0], 0)


@check
def one_folder_by_two_names_is_in_use_for_both(trial):
    (trial.folder / "link").symlink_to(trial.root)
    held = Held(trial, WORK, "write", "*/log.*")
    is_in_use(trial, "", ("ls",), trial.folder / "link")
    same("the end of the first program", held.ends()[0], 0)
    trial.ends(0, "", trial.folder / "link", words=("ls",), lines="0 ls f\n")


@check
def after_a_kill_root_is_free_again(trial):
    held = Held(trial, WORK, "write", "*/log.*")
    is_in_use(trial, "", ("ls",), trial.root)
    held.program.kill()
    held.program.communicate()
    trial.ends(0, "", words=("recover", "f"), lines="0 recovered 4294967297:0 alive - hold no\n")
    trial.ends(0, WORK.replace("open f", "open g"))


@check
def where_the_system_has_no_locks_root_is_served_without(trial):
    for error in ("EOPNOTSUPP", "ENOLCK", "EIO"):
        ended, calls = trial.watched(WORK.replace("open f", f"open {error}"), f"fail {error} lock 1+ *")
        same(f"the end at {error}", (ended.status, ended.out.count("\n"), ended.err), (0, 4, ""))
        true("no lock was asked for", any(it.kind == "lock" for it in calls))


@check
def a_lock_waits_for_nobody(trial):
    _, calls = trial.watched(WORK)
    same("the locks that are asked for", [(it.path, it.more) for it in calls if it.kind == "lock"], [(str(trial.root), ["alone", "now"])])


@check
def a_script_is_read_to_its_end_before_root_is_taken(trial):
    trial.ends(0, WORK)
    second = trial.start("", stdin=subprocess.PIPE)
    second.stdin.write(b"actor a\n")
    second.stdin.flush()
    trial.ends(0, "", words=("ls",), lines="0 ls f\n")
    out, err = second.communicate(b"a ropen f\na read 0 5\n", timeout=SECONDS)
    same("the end of the second", (second.returncode, err), (0, b""))
    true(f"it printed {out!r}", out.endswith(b"\n3 read 0 68656c6c6f\n"))
