"""Damaged folders, on which `plfs_check` and an independent judge, soundness.py, agree.

    tests/checks.py [COUNT [SEED]]

tries so many damaged folders by itself (2,000 where no COUNT is given), and prints each disagreement."""

import os
import pathlib
import pty
import random
import resource
import shutil
import subprocess
import sys
import tempfile

from damages import damaged, kept_of
from kills import killed_when, marks, places, size_of, writing
from soundness import disagreement, is_sound, spelled
from trial import SECONDS, Trial, check, listed, same, true

USAGE = "usage: plfs_check ROOT [NAME]\n"
# So many damaged folders in the gate.
DAMAGED = 48
# The address space that a check of a damaged folder may have. One that read a hole of many GB wouldn't end within it.
MOST_MEMORY = 2**30
KILLS = 6


def memory_limit(most):
    resource.setrlimit(resource.RLIMIT_AS, (most, most))


def checked(trial, *words, root=None, limits=(), **how):
    """Runs the program under the name plfs_check: its status, what it printed, and what it said."""

    def before():
        for limit, most in limits:
            limit(most)

    how = {"stdin": subprocess.DEVNULL, "stdout": subprocess.PIPE, "stderr": subprocess.PIPE, "cwd": trial.folder, **how}
    how.setdefault("env", {"PATH": os.environ.get("PATH", "/usr/bin:/bin"), "LANG": "C.UTF-8"})
    words = ["plfs_check", str(trial.root if root is None else root), *words]
    ended = subprocess.run(words, executable=trial.program, preexec_fn=before, timeout=SECONDS, **how)
    return ended.returncode, (ended.stdout or b"").decode(), (ended.stderr or b"").decode()


# Two containers: of several writers and hosts, with truncates, a flattened and packed indices, and writers that were stopped.
FIRST = """actor a 1
actor b 34
actor c
a open f
b open f
a write 0 text:hello
b write 3 text:world
a write 20 text:abcde
b write 9 text:xyz
a write 25 text:abcde
a sync
a close
b close
phase
c open g
c write 0 text:one
c write 3 text:two
c write 6 text:six
c sync
"""
SECOND = """actor a 7
a open f
a write 4 text:later
a write 40 text:end
a sync
"""


def made(trial):
    """A good folder with an item of each kind."""
    trial.ends(0, FIRST)
    trial.ends(0, "", words=("trunc", "f", "28"))
    trial.ends(0, "", words=("flatten", "f"))
    trial.ends(0, "", words=("migrate", "f"))
    trial.ends(0, SECOND)
    trial.ends(0, "actor a\na open h\na write 1 text:x\na close\n")
    trial.ends(0, "", words=("trunc", "h", "0"))
    true("the folder isn't sound for the judge", is_sound(trial.root))


def agreeing(trial, count, chance):
    """Tries so many damaged folders: how often the verdict was that the folder is sound, and each disagreement."""
    made(trial)
    sound, wrong, kinds = 0, [], set()
    for turn in range(count):
        root, names = damaged(trial, trial.root, chance, turn)
        before = kept_of(root)
        status, out, err = checked(trial, root=root, limits=[(memory_limit, MOST_MEMORY)])
        sound += status == 0
        kinds |= {line.split(" ")[1] for line in out.splitlines() if line.startswith("broken ")}
        why = disagreement(root, status, out)
        if kept_of(root) != before:
            why += " and the folder was changed"
        if why:
            wrong.append(f"{names}: {why}; status {status}, {out!r}, {err!r}")
        shutil.rmtree(root)
    return sound, wrong, kinds


@check
def a_damaged_folder_is_judged_as_the_page_of_formats_judges_it(trial):
    sound, wrong, kinds = agreeing(trial, DAMAGED, trial.random)
    same("disagreements", wrong, [])
    true(f"only {sorted(kinds)} were complained of", len(kinds) >= 8)
    true(f"{sound} of {DAMAGED} folders were sound", sound < DAMAGED // 2)


@check
def a_good_folder_is_sound_and_each_of_its_containers_is(trial):
    same("an empty folder", checked(trial), (0, "sound\n", ""))
    made(trial)
    before = listed(trial.root)
    same("the whole folder", checked(trial), (0, "sound\n", ""))
    for name in ("f", "g", "h"):
        same(f"the container {name}", checked(trial, name), (0, "sound\n", ""))
    same("one that isn't there", checked(trial, "i"), (1, "0 refused no-file\n", ""))
    same("what lies in ROOT", listed(trial.root), before)


@check
def one_container_alone_is_checked_where_it_is_named(trial):
    made(trial)
    (trial.root / "f" / "truncs" / "dog").touch()
    (trial.root / "h" / "metadata" / "cat").touch()
    lines = ["broken foreign f truncs/dog -\n", "broken foreign h metadata/cat -\n"]
    same("all", checked(trial)[:2], (7, "".join(lines)))
    same("f", checked(trial, "f")[:2], (7, lines[0]))
    same("g", checked(trial, "g")[:2], (0, "sound\n"))
    same("h", checked(trial, "h")[:2], (7, lines[1]))


@check
def what_else_lies_in_the_folder_is_not_looked_at_but_for_its_name(trial):
    made(trial)
    (trial.root / "note").write_text("x")
    (trial.root / ".other").mkdir()
    (trial.root / "a b").mkdir()
    (trial.root / "link").symlink_to(trial.root / "f")
    same("what is told", checked(trial)[:2], (0, "sound\n"))
    for name in (b"x" * 97, b"\xff\xfe"):
        path = os.path.join(os.fsencode(trial.root), name)
        os.mknod(path)
        same(f"beside {name}", checked(trial)[:2], (4, "0 fault\n"))
        os.remove(path)


@check
def words_that_are_no_command_of_plfs_check_print_its_usage_line(trial):
    for words in (("f", "g"), ("",), (".plfs",), ("-f",), ("f/g",), ("x" * 65,)):
        same(f"{words}", checked(trial, *words)[:2], (2, USAGE))
    trial.is_untouched()


@check
def after_kills_of_writers_a_folder_is_sound(trial):
    killed, turn, most = 0, 0, trial.kills or KILLS
    while turn < 4 * most and killed < most:
        if turn % (4 * KILLS) == 0:
            shutil.rmtree(trial.root / "f", ignore_errors=True)
            trial.ends(0, "actor a\na open f\na close\n")
        _, log, index = places(trial)
        least = trial.random.randrange(800)
        killed += killed_when(trial.start(writing(turn)), lambda: size_of(log) > least)
        same(f"after the kill {turn}", checked(trial), (0, "sound\n", ""))
        true("the judge differs", is_sound(trial.root))
        if turn % 2:
            trial.ends(0, "", words=("recover", "f"))
            same("after a recovery", checked(trial), (0, "sound\n", ""))
        turn += 1
    true("no run was killed", killed)
    trial.note = f"{killed} of {turn} were killed"


@check
def a_log_of_more_than_2_to_the_56_bytes_is_too_long(trial):
    trial.ends(0, "actor a\na open f\na write 0 text:x\n")
    index = next((trial.root / "f" / "hostdir.0").glob("index.0.*"))
    writer = int(index.name.split(".")[2])
    count = 2**16 + 1
    index.write_bytes(b"".join(spelled([0, 2**40, 2**40 * place, place + 1, writer]) for place in range(count)))
    same("the end", checked(trial)[:2], (7, f"broken long-log f hostdir.0/{index.name} -\n"))
    same("the judge", disagreement(trial.root, *checked(trial)[:2]), "")


def shown(terminal):
    """All that a terminal shows whose other end is closed. One read may give a part of it."""
    gone = b""
    while True:
        try:
            more = os.read(terminal, 2**12)
        except OSError:
            return gone
        if not more:
            return gone
        gone += more


@check
def a_check_tells_on_a_terminal_alone_how_far_it_is(trial):
    made(trial)
    near, far = pty.openpty()
    same("what is printed", checked(trial, stderr=far)[:2], (0, "sound\n"))
    os.close(far)
    same("what a terminal shows", shown(near), b"".join(b"%d of 4\x1b[K\r" % done for done in range(4)) + b"\x1b[K")
    os.close(near)
    same("standard error elsewhere", checked(trial)[2], "")


@check
def a_check_whose_output_fails_is_status_6(trial):
    made(trial)
    with open("/dev/full", "wb") as full:
        same("the status", checked(trial, stdout=full)[0], 6)


def main():
    here = pathlib.Path(__file__).resolve().parent
    count = int(sys.argv[1]) if len(sys.argv) > 1 else 2000
    seed = int(sys.argv[2]) if len(sys.argv) > 2 else random.randrange(2**32)
    with tempfile.TemporaryDirectory() as folder:
        trial = Trial(here.parent / "crates" / "plfs" / "out" / "plfs", None, here.parent, folder, random.Random(seed))
        sound, wrong, kinds = agreeing(trial, count, trial.random)
    for line in wrong:
        print(line)
    print(f"seed {seed}: {count} folders, {sound} of them sound, {len(wrong)} disagreements; {len(kinds)} kinds: {' '.join(sorted(kinds))}")
    return bool(wrong)


if __name__ == "__main__":
    sys.dont_write_bytecode = True
    sys.exit(main())
