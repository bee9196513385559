"""The root scripts `plfs` and `build`, in a copy of the repository's shape with a program of three lines."""

import os
import shutil
import signal
import subprocess
import sys
import time

from trial import Skipped, check, same, true

PROGRAM = "#!/bin/sh\nprintf 'program'\nprintf ' <%s>' \"$@\"\nprintf '\\n'\n"
NEEDED = ["bash", "cat", "dirname", "env", "find", "readlink", "sh", "touch"]
# What the toolchain in the place of `rt` calls.
CALLED = ["basename", "cp", "ls", "mkdir", "sleep"]

# A toolchain that proves a crate where what it stands on is proved, and where no file forbids it. It notes what it does.
TOOLCHAIN = """#!/bin/sh
top='{top}'
case $1 in
version) echo kit ;;
lib)
    name=$(basename "$PWD")
    echo "begin $name" >>"$top/seen"
    sleep {pause}
    for low in $(cat src/stands_on); do
        [ -d "../$low/out/rlib/$low.rlib" ] || echo "$name lacks $low" >>"$top/seen"
    done
    mkdir -p "out/incremental" "out/rlib/$name.rlib"
    [ ! -e "$top/wrong-$name" ] || {{ echo a goal is open; exit 1; }}
    echo "end $name" >>"$top/seen" ;;
run) ls "$5" >>"$top/seen" && cp '{program}.made' '{program}' ;;
esac
"""
# As in crates.txt: `low` below all, two pairs beside one another, one above these, and one that the program doesn't need.
CRATES = {"low": "", "left": "low", "right": "low", "far_left": "left", "far_right": "right", "above": "far_left far_right low", "apart": "low", "plfs": "above left"}


class Copy:
    """A copy of the script, with the tools of the system that it calls and no other."""

    def __init__(self, trial):
        self.top = trial.folder / "a copy"
        self.script = self.top / "plfs"
        self.program = self.top / "crates" / "plfs" / "out" / "plfs"
        self.source = self.top / "crates" / "plfs" / "main.rt"
        self.tools = trial.folder / "tools"
        self.elsewhere = trial.folder / "elsewhere"
        for folder in (self.program.parent, self.tools, self.elsewhere):
            folder.mkdir(parents=True)
        for name in ("plfs", "build"):
            shutil.copy(trial.top / name, self.top / name)
        (self.top / "crates.txt").write_text("")
        self.source.write_text("")
        for name in NEEDED + CALLED:
            found = shutil.which(name)
            if not found:
                raise Skipped(f"{name} is not there")
            (self.tools / name).symlink_to(found)
        pythons = [sys.executable, shutil.which("python3") or "", "/usr/bin/python3"]
        (self.tools / "python3").symlink_to(next(it for it in pythons if it and os.access(it, os.X_OK)))

    def build(self, age):
        """Puts a program there, older or younger than its sources."""
        place(self.program, PROGRAM)
        for path in (self.top / "crates.txt", self.source):
            os.utime(path, (10**9, 10**9))
        os.utime(self.program, (10**9 + age, 10**9 + age))

    def toolchain(self, crates=None, pause=0):
        """Puts these crates there, and a toolchain that proves them and then makes the program."""
        self.build(1)
        self.program.rename(f"{self.program}.made")
        place(self.tools / "rt", TOOLCHAIN.format(top=self.top, program=self.program, pause=pause))
        for name, low in (crates or {}).items():
            source = self.top / "crates" / name / "src"
            source.mkdir(parents=True, exist_ok=True)
            (source / "lib.rt").write_text(f"{name}\n")
            (source / "stands_on").write_text(low)
        (self.top / "crates.txt").write_text("".join(f"{name}: {low} itoa\n" for name, low in reversed((crates or {}).items())))

    def seen(self):
        """What the toolchain noted since it was last asked."""
        found = (self.top / "seen").read_text().splitlines() if (self.top / "seen").exists() else []
        (self.top / "seen").write_text("")
        return found

    def run(self, *words, script=None, **more):
        env = {"PATH": str(self.tools), "TMPDIR": str(self.elsewhere), **more}
        return subprocess.run([script or self.script, *words], cwd=self.elsewhere, env=env, stdin=subprocess.DEVNULL,
                              stdout=subprocess.PIPE, stderr=subprocess.PIPE, text=True, timeout=20)


def place(path, text):
    path.write_text(text)
    path.chmod(0o755)


def is_quiet(ended, out):
    same("what the script ends with", (ended.returncode, ended.stdout, ended.stderr), (0, out, ""))


@check
def the_root_script_hands_its_words_on_and_says_nothing(trial):
    copy = Copy(trial)
    copy.build(1)
    is_quiet(copy.run("a b", "", "--help", "*"), "program <a b> <> <--help> <*>\n")


@check
def the_root_script_says_which_word_is_no_name_of_a_file(trial):
    copy = Copy(trial)
    copy.build(1)
    for name in ("plfs_copy", "plfs_check", "plfs_serve"):
        (copy.top / name).symlink_to("plfs")
    why = "no name of a file, which has 1 to 64 of A-Za-z0-9_-. and neither . nor - first"
    wrong = [("plfs", ("stat", "a/b"), "a/b"), ("plfs", ("cat", ".x"), ".x"), ("plfs", ("trunc", "-f", "3"), "-f"), ("plfs", ("rename", "f", "g h"), "g\\ h"),
             ("plfs", ("unpack", "f", "\n"), "$'\\n'"), ("plfs", ("drain", "é", "x"), None), ("plfs", ("names", 65 * "n"), 65 * "n"), ("plfs_copy", ("put", ""), "''"),
             ("plfs_copy", ("get", "a b"), "a\\ b"), ("plfs_check", ("a:b",), "a:b")]
    for name, words, shown in wrong:
        ended = copy.run("root", *words, script=copy.top / name)
        true(f"{words} say {ended.stderr!r}", ended.stderr == f"plfs: {shown}: {why}\n" or shown is None and ended.stderr.endswith(f": {why}\n"))
        same(f"what {words} print", (ended.returncode, ended.stdout), (0, "program <root>" + "".join(f" <{it}>" for it in words) + "\n"))
    good = [("plfs", ("stat", 64 * "n")), ("plfs", ("rename", "_f", "9.-")), ("plfs", ("gen", "256")), ("plfs", ("gen",)), ("plfs", ("pack", "p", "0")), ("plfs", ("trunc", "f", "1" + 30 * "0")), ("plfs", ("stat",)), ("plfs", ("ls", "a/b")), ("plfs_copy", ("import", "a/b")),
            ("plfs_copy", ("put", "f", "--from", "a/b")), ("plfs_copy", ("put", "f", "4294967295", "--over")), ("plfs_check", ()), ("plfs_serve", ("a/b",))]
    for name, words in good:
        is_quiet(copy.run("root", *words, script=copy.top / name), "program <root>" + "".join(f" <{it}>" for it in words) + "\n")


@check
def the_root_script_says_which_word_is_no_number(trial):
    copy = Copy(trial)
    copy.build(1)
    (copy.top / "plfs_copy").symlink_to("plfs")
    wrong = [("plfs", ("gen", "0"), "0", (1, 256)), ("plfs", ("gen", "08"), "08", (1, 256)), ("plfs", ("gen", "257"), "257", (1, 256)),
             ("plfs", ("pack", "p", "256"), "256", (0, 255)), ("plfs", ("pack", "p", "a[0]"), "a\\[0\\]", (0, 255)), ("plfs", ("trunc", "f", "0x10"), "0x10", (0, 2**40)),
             ("plfs", ("trunc", "f", ""), "''", (0, 2**40)), ("plfs_copy", ("put", "f", str(2**32)), str(2**32), (0, 2**32 - 1)),
             ("plfs_copy", ("import", "a/b", "+1"), "+1", (0, 2**32 - 1))]
    for name, words, shown, (least, most) in wrong:
        ended = copy.run("root", *words, script=copy.top / name)
        same(f"what {words} say", ended.stderr, f"plfs: {shown}: no number from {least} to {most}, in decimal digits without leading zeros\n")
        same(f"what {words} print", (ended.returncode, ended.stdout), (0, "program <root>" + "".join(f" <{it}>" for it in words) + "\n"))


@check
def the_root_script_is_found_through_links(trial):
    copy = Copy(trial)
    copy.build(1)
    (copy.elsewhere / "once").symlink_to("../a copy/plfs")
    (copy.elsewhere / "twice").symlink_to("once")
    is_quiet(copy.run("x", script=copy.elsewhere / "twice"), "program <x>\n")


@check
def a_limit_on_the_sizes_of_files_ends_no_program_of_the_root_script(trial):
    copy = Copy(trial)
    copy.build(1)
    place(copy.program, "#!/bin/sh\nkill -XFSZ $$\necho 'the program goes on'\n")
    os.utime(copy.program, (10**9 + 1, 10**9 + 1))
    is_quiet(copy.run("x"), "the program goes on\n")


@check
def help_and_version_are_told_without_a_program(trial):
    copy = Copy(trial)
    told = copy.run("--help")
    same("the status", told.returncode, 0)
    true(f"help is {told.stdout!r}", told.stdout.startswith("usage: plfs ROOT ") and not told.stderr)
    told = copy.run("--version")
    true(f"the version is {told.stdout!r}", told.stdout.startswith("plfs ") and len(told.stdout.split()) == 2)
    same("what was made", os.listdir(copy.elsewhere), [])


@check
def without_the_toolchain_an_old_program_runs_and_is_told_to_be_old(trial):
    copy = Copy(trial)
    copy.build(-1)
    ended = copy.run("x")
    same("the end", (ended.returncode, ended.stdout), (0, "program <x>\n"))
    true(f"standard error is {ended.stderr!r}", "older than its sources" in ended.stderr and ended.stderr.count("\n") == 1)


@check
def without_toolchain_and_program_the_status_is_70(trial):
    ended = Copy(trial).run("x")
    same("the end", (ended.returncode, ended.stdout, ended.stderr.count("\n")), (70, "", 1))


@check
def the_root_script_builds_once_in_a_temporary_folder_and_removes_it(trial):
    copy = Copy(trial)
    copy.toolchain()
    ended = copy.run("x")
    same("the end", (ended.returncode, ended.stdout), (0, "program <x>\n"))
    true(f"standard error is {ended.stderr!r}", "proving and building" in ended.stderr and "built in" in ended.stderr)
    same("what is left of the temporary folder", os.listdir(copy.elsewhere), [])
    is_quiet(copy.run("x"), "program <x>\n")


@check
def crates_are_proved_side_by_side_each_once_and_behind_what_it_stands_on(trial):
    copy = Copy(trial)
    copy.toolchain(CRATES, 0.4)
    ended = copy.run("x", PLFS_LANES="2")
    same(f"the end ({ended.stderr})", (ended.returncode, ended.stdout), (0, "program <x>\n"))
    seen = copy.seen()
    needed = [it for it in CRATES if it not in ("apart", "plfs")]
    same("what was proved", sorted(seen), sorted(f"{word} {it}" for it in needed for word in ("begin", "end")))
    for name in needed:
        for low in CRATES[name].split():
            true(f"{name} was begun before {low} was proved", seen.index(f"end {low}") < seen.index(f"begin {name}"))
    true(f"no two were proved side by side: {seen}", seen.index("begin right") < seen.index("end left") and seen.index("begin left") < seen.index("end right"))
    told = [line for line in ended.stderr.splitlines() if " of 6 crates proved: " in line]
    same("how many are told as proved", [line.split()[1] for line in told], [str(number) for number in range(1, 7)])
    true(f"what is told is {told}", "at work on " in told[0] and " left" in told[0] and told[-1].endswith(": above"))
    true("a lane is left", not (copy.program.parent / "lanes").exists())


@check
def a_build_goes_on_where_it_was_stopped(trial):
    copy = Copy(trial)
    copy.toolchain(CRATES, 0.1)
    (copy.top / "wrong-far_right").touch()
    ended = copy.run("x")
    same("the end", (ended.returncode, ended.stdout), (70, ""))
    true(f"standard error is {ended.stderr!r}", "a goal is open" in ended.stderr and "far_right is not proved" in ended.stderr)
    true("the kept work of the crate is lost", (copy.top / "crates" / "far_right" / "out" / "incremental").is_dir())
    proved = {it.split()[1] for it in copy.seen() if it.startswith("end ")}
    true(f"proved are {proved}", {"low", "right"} <= proved)
    (copy.top / "wrong-far_right").unlink()
    env = {"PATH": str(copy.tools), "TMPDIR": str(copy.elsewhere)}
    started = subprocess.Popen([copy.script, "x"], cwd=copy.elsewhere, env=env, stdin=subprocess.DEVNULL, stdout=subprocess.DEVNULL, stderr=subprocess.DEVNULL, start_new_session=True)
    end = time.monotonic() + 20
    while "end far_right" not in (copy.top / "seen").read_text():
        true("it doesn't go on", time.monotonic() < end)
        time.sleep(0.01)
    os.killpg(started.pid, signal.SIGINT)
    started.wait(20)
    proved |= {it.split()[1] for it in copy.seen() if it.startswith("end ")}
    ended = copy.run("x")
    same(f"the end ({ended.stderr})", (ended.returncode, ended.stdout), (0, "program <x>\n"))
    again = {it.split()[1] for it in copy.seen()}
    same("what was proved twice", again & proved, set())
    same("what was proved in all", again | proved, set(CRATES) - {"apart", "plfs"})
    (copy.top / "crates" / "far_left" / "src" / "lib.rt").write_text("changed\n")
    same("the end after a change", copy.run("x").returncode, 0)
    same("what a change has proved anew", {it.split()[1] for it in copy.seen()}, {"far_left", "above"})


@check
def a_source_in_a_folder_named_out_is_seen_and_what_was_made_is_not(trial):
    copy = Copy(trial)
    copy.build(1)
    for folder, is_seen in (("plfs/out/lanes/0/crates/low/src", False), ("plfs/proofs/stage/out", True)):
        source = copy.top / "crates" / folder / "Answers.antt"
        source.parent.mkdir(parents=True)
        source.write_text("")
        ended = copy.run("x")
        same(f"the end with {folder}", (ended.returncode, ended.stdout, "older than its sources" in ended.stderr), (0, "program <x>\n", is_seen))


@check
def where_the_toolchain_fails_the_script_says_what_it_said(trial):
    copy = Copy(trial)
    place(copy.tools / "rt", "#!/bin/sh\necho a goal is open\nexit 1\n")
    ended = copy.run("x")
    same("the end", (ended.returncode, ended.stdout), (70, ""))
    true(f"standard error is {ended.stderr!r}", "a goal is open" in ended.stderr)


@check
def without_a_temporary_folder_the_script_stops_and_touches_nothing(trial):
    copy = Copy(trial)
    place(copy.tools / "rt", f"#!/bin/sh\ntouch '{copy.top}/called'\n")
    ended = copy.run("x", TMPDIR=str(trial.folder / "away"))
    same("the end", (ended.returncode, ended.stdout), (70, ""))
    true(f"standard error is {ended.stderr!r}", "temporary folder" in ended.stderr)
    true("the toolchain was called", not (copy.top / "called").exists())
