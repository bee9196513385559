"""Files of one's own come in by their names, under the name plfs_copy: one behind the other, and all of a folder."""

import os
import pty
import re
import shutil
import signal
import subprocess
import time

from copies_in import BLOCK, KILLS, gets, puts, refused, run, start, three_folders
from trial import SECONDS, Skipped, check, ignore, listed, same, size_limit, true


def folder_of(trial, contents, name="in"):
    """A folder with files of these names and bytes."""
    folder = trial.folder / name
    folder.mkdir()
    for file, content in contents.items():
        (folder / file).write_bytes(content)
    return folder


def lines_of(out):
    """What an import printed: for each name the rest of its line, in their order."""
    return [tuple(line.split(" ", 1)) for line in out.decode().splitlines()]


def imports(trial, folder, *words, status=0, err="", root=None, **how):
    """An import that must end so. Its lines are returned, without the writers' ids."""
    got, out, said = run(trial, "import", str(folder), *words, root=root, **how)
    same(f"the end of import ({out[-300:]!r})", (got, said.replace(str(folder), "DIR")), (status, err))
    return [(name, re.sub(r"^(put \d+) \d+$", r"\1", rest)) for name, rest in lines_of(out)]


def random_contents(trial, count):
    """So many names, each with random bytes: mostly few, and none, and some more than a block."""
    sizes = [0, 1, BLOCK, BLOCK + 1] + [trial.random.randrange(70_000) for _ in range(count)]
    letters = "abcXYZ019_-."
    names = {"a", "A", "0", "_"}
    while len(names) < count:
        names.add(trial.random.choice("abcXYZ019_") + "".join(trial.random.choices(letters, k=trial.random.randrange(64))))
    return {name: trial.random.randbytes(sizes[place]) for place, name in enumerate(sorted(names))}


@check
def a_folder_of_100_random_files_is_imported_in_the_order_of_their_names_and_got_again(trial):
    contents = random_contents(trial, 100)
    folder = folder_of(trial, contents)
    before = listed(folder)
    wanted = [(name, f"put {len(contents[name])}") for name in sorted(contents)]
    same("the lines", imports(trial, folder, seconds=120), wanted)
    for name, content in contents.items():
        gets(trial, content, name)
        same(f"who has {name} open", os.listdir(trial.root / name / "openhosts"), [])
    same("the folder", listed(folder), before)
    same("what ls names", trial.ends(0, "", words=("ls",)).out.split()[2].split(","), sorted(contents))


@check
def a_name_that_is_there_is_refused_by_an_import_and_with_over_replaced(trial):
    folder = folder_of(trial, {"a": b"new a", "b": b"new b", "c": b"new c"})
    puts(trial, b"old b", "b")
    before = listed(trial.root / "b")
    same("the lines", imports(trial, folder, status=1), [("a", "put 5"), ("b", "0 refused exists"), ("c", "put 5")])
    same("what lies in b", listed(trial.root / "b"), before)
    for name, content in (("a", b"new a"), ("b", b"old b"), ("c", b"new c")):
        gets(trial, content, name)
    same("the lines of a second one", imports(trial, folder, status=1), [(name, "0 refused exists") for name in "abc"])
    same("the lines with --over", imports(trial, folder, "7", "--over"), [(name, "put 5") for name in "abc"])
    gets(trial, b"new b", "b")
    true("no log of host 7", any((trial.root / "b" / "hostdir.7").glob("log.7.*")))


@check
def what_is_no_file_with_a_name_of_one_is_left_out_and_told(trial):
    folder = folder_of(trial, {"a": b"a", ".hidden": b"h", "-dash": b"d", "two words": b"t", "b\nc": b"n", 65 * "l": b"l", "z": b"z"})
    (folder / "sub").mkdir()
    (folder / "sub" / "inner").write_bytes(b"inner")
    os.mkfifo(folder / "fifo")
    (folder / "link").symlink_to("a")
    (folder / "nowhere").symlink_to("gone")
    status, out, err = run(trial, "import", str(folder))
    same("the end", (status, [line[0] for line in lines_of(out)]), (1, ["a", "link", "z"]))
    said = {line.removeprefix(f"plfs: {folder}/") for line in err.splitlines()}
    name = "its name is none of a file"
    left = {".hidden": name, "-dash": name, "two words": name, "b\\nc": name, 65 * "l": name, "sub": "it is no plain file", "fifo": "it is no plain file", "nowhere": "it leads nowhere"}
    same("standard error", said, {f"{it}: left out: {why}" for it, why in left.items()})
    gets(trial, b"a", "link")
    same("the rooms", sorted(it for it in os.listdir(trial.root) if it != ".plfs"), ["a", "link", "z"])


@check
def a_name_that_is_no_text_is_left_out(trial):
    folder = folder_of(trial, {"a": b"a"})
    try:
        (folder / os.fsdecode(b"\xff")).write_bytes(b"x")
    except OSError:
        raise Skipped("the file system takes text alone") from None
    same("the lines", imports(trial, folder, status=1, err="plfs: DIR/?: left out: its name is no text\n"), [("a", "put 1")])


@check
def a_file_that_can_not_be_opened_is_left_out_with_status_5_and_the_others_are_put(trial):
    folder = folder_of(trial, {"a": b"a", "b": b"b", "c": b"c"})
    (folder / "b").chmod(0)
    err = "plfs: DIR/b: open: Permission denied (os error 13)\n"
    same("the lines", imports(trial, folder, status=5, err=err), [("a", "put 1"), ("c", "put 1")])
    true("b was made", not (trial.root / "b").exists())


@check
def a_file_that_can_not_be_read_to_its_end_is_told_and_its_front_kept_and_the_next_one_follows(trial):
    content = trial.random.randbytes(BLOCK + 1000)
    folder = folder_of(trial, {"a": b"a", "b": content, "c": b"c"})
    watched = trial.watch(["fail EIO read 2 */in/b"])
    err = "plfs: DIR/b: read: Input/output error (os error 5)\n"
    lines = imports(trial, folder, status=5, err=err, **watched)
    kept = int(lines[1][1].split()[1])
    same("the lines", lines, [("a", "put 1"), ("b", f"put {kept}"), ("c", "put 1")])
    true(f"{kept} bytes were put of a file that breaks", kept < len(content))
    gets(trial, content[:kept], "b")
    for name in "abc":
        same(f"who has {name} open", os.listdir(trial.root / name / "openhosts"), [])


@check
def a_file_that_vanishes_behind_the_listing_is_told_and_the_next_one_follows(trial):
    folder = folder_of(trial, {"a": b"a", "b": b"b", "c": b"c"})
    watched = trial.watch(["fail ENOENT open 2 */in/b"])
    err = "plfs: DIR/b: read: No such file or directory (os error 2)\n"
    same("the lines", imports(trial, folder, status=5, err=err, **watched), [("a", "put 1"), ("b", "put 0"), ("c", "put 1")])


@check
def a_folder_that_can_not_be_listed_is_status_5_and_nothing_is_done(trial):
    same("none", run(trial, "import", str(trial.folder / "none")), (5, b"", f"plfs: {trial.folder}/none: list: No such file or directory (os error 2)\n"))
    (trial.folder / "file").write_bytes(b"x")
    same("a file", run(trial, "import", str(trial.folder / "file")), (5, b"", f"plfs: {trial.folder}/file: list: Not a directory (os error 20)\n"))
    trial.is_untouched()


@check
def an_empty_folder_makes_no_file(trial):
    same("the lines", imports(trial, folder_of(trial, {})), [])
    same("the rooms", [it for it in os.listdir(trial.root) if it != ".plfs"], [])


@check
def an_import_ends_at_a_failed_store_with_its_line(trial):
    folder = folder_of(trial, {"a": b"a", "b": bytes(3_000_000), "c": b"c"})
    status, out, err = run(trial, "import", str(folder), limits=[(ignore, signal.SIGXFSZ), (size_limit, 1_000_000)])
    same("the status", status, 4)
    same("the lines", [(name, rest.split()[:2]) for name, rest in lines_of(out)], [("a", ["put", "1"]), ("b", ["0", "fault"])])
    true(f"standard error is {err!r}", err.startswith(f"plfs: {trial.root}/b/") and err.count("\n") == 1)
    true("c was made", not (trial.root / "c").exists())
    trial.ends(0, "", words=("recover", "b"))
    same("the lines of another one", imports(trial, folder, "--over"), [("a", "put 1"), ("b", "put 3000000"), ("c", "put 1")])


@check
def an_import_whose_output_is_broken_is_status_6_and_ends(trial):
    folder = folder_of(trial, {"a": b"a", "b": b"b"})
    with open("/dev/full", "wb") as full:
        same("the status", run(trial, "import", str(folder), stdout=full)[0], 6)
    same("the rooms", [it for it in os.listdir(trial.root) if it != ".plfs"], [])


@check
def two_imports_at_once_do_not_meet(trial):
    one = folder_of(trial, {f"a{place}": trial.random.randbytes(50_000) for place in range(40)}, "one")
    two = folder_of(trial, {f"b{place}": trial.random.randbytes(50_000) for place in range(40)}, "two")
    started = [start(trial, "import", str(folder)) for folder in (one, two)]
    ends = [(it.communicate(timeout=SECONDS), it.returncode) for it in started]
    statuses = sorted(status for _, status in ends)
    true(f"the statuses are {statuses}", statuses in ([0, 0], [0, 4]))
    for (out, err), status in ends:
        if status == 4:
            same("what the other one said", (out, err.decode()), (b"0 fault\n", f"plfs: {trial.root}: in use by another program\n"))
    for folder, (_, status) in zip((one, two), ends):
        for file in sorted(folder.iterdir()):
            if status == 0:
                gets(trial, file.read_bytes(), file.name)
            else:
                true(f"{file.name} was made", not (trial.root / file.name).exists())


@check
def several_folders_take_what_is_imported(trial):
    _, root = three_folders(trial)
    contents = {f"f{place}": trial.random.randbytes(100 + place) for place in range(12)}
    folder = folder_of(trial, contents)
    same("the lines", imports(trial, folder, root=root), [(name, f"put {len(contents[name])}") for name in sorted(contents)])
    for name, content in contents.items():
        same(f"get {name}", run(trial, "get", name, root=root), (0, content, ""))


@check
def an_import_that_is_killed_leaves_whole_files_and_one_front(trial):
    contents = {f"f{place:02}": trial.random.randbytes(trial.random.choice((1000, 300_000, BLOCK + 5))) for place in range(12)}
    folder = folder_of(trial, contents)
    killed = 0
    for turn in range(trial.kills or KILLS):
        started = start(trial, "import", str(folder))
        time.sleep(trial.random.random() * 0.6)
        started.kill()
        out, _ = started.communicate()
        killed += started.returncode == -signal.SIGKILL
        whole = [line for line in out.decode().split("\n")[:-1]]
        for line in whole:
            name, verb, count, _ = line.split()
            same(f"the line of {name}", (verb, int(count)), ("put", len(contents[name])))
            gets(trial, contents[name], name)
        same("the order", [line.split()[0] for line in whole], sorted(contents)[: len(whole)])
        rooms = sorted(it for it in os.listdir(trial.root) if not it.startswith("."))
        true(f"{rooms} beside {len(whole)} lines", rooms[: len(whole)] == sorted(contents)[: len(whole)] and len(rooms) <= len(whole) + 1)
        for name in rooms[len(whole) :]:
            trial.ends(0, "", words=("recover", name))
            status, front, err = run(trial, "get", name)
            same(f"the end of get ({err!r})", (status, err), (0, ""))
            true(f"{name} is no front", contents[name].startswith(front))
        status, out, err = run(trial, "import", str(folder), "--over", seconds=60)
        same(f"the import behind it ({out[-200:]!r})", (status, err), (0, ""))
        shutil.rmtree(trial.root)
        trial.root.mkdir()
    if not killed:
        raise Skipped("no import was killed")
    trial.note = f"{killed} of {turn + 1} were killed"


@check
def files_are_put_one_behind_the_other(trial):
    contents = [b"first ", b"", trial.random.randbytes(BLOCK - 3), b"last"]
    names = []
    for place, content in enumerate(contents):
        names.append(f"part {place}")
        (trial.folder / names[-1]).write_bytes(content)
    whole = b"".join(contents)
    status, out, err = run(trial, "put", "f", "3", "--from", *names)
    same("the end", (status, out.split()[:2], err), (0, [b"put", str(len(whole)).encode()], ""))
    gets(trial, whole)
    refused(trial, "0 refused exists\n", "put", "f", "--from", names[0])
    status, out, err = run(trial, "put", "f", "--over", "--from", names[3], names[3])
    same("the end with --over", (status, out.split()[:2], err), (0, [b"put", b"8"], ""))
    gets(trial, b"lastlast")
    same("without standard input", run(trial, "put", "g", "--from", names[0], closed=[0], stdin=None)[0], 0)
    gets(trial, b"first ", "g")


@check
def a_file_behind_from_that_can_not_be_had_is_told_and_nothing_is_done(trial):
    (trial.folder / "a").write_bytes(b"a")
    same("the end", run(trial, "put", "f", "--from", "a", "none"), (5, b"", "plfs: none: open: No such file or directory (os error 2)\n"))
    trial.is_untouched()
    (trial.folder / "b").write_bytes(bytes(100_000))
    status, out, err = run(trial, "put", "f", "--from", "a", "b", **trial.watch(["fail EIO read 2 */b"]))
    same("the end where a read fails", (status, out.split()[:2], err), (5, [b"put", b"1"], "plfs: b: read: Input/output error (os error 5)\n"))
    gets(trial, b"a")


def on_a_terminal(trial, *words, content=None):
    """What a run shows on standard error, which is a terminal, and what it prints elsewhere."""
    reader, writer = pty.openpty()
    how = {"stderr": writer}
    if content is not None:
        how["stdin"] = content
    started = start(trial, *words, **how)
    os.close(writer)
    out = started.stdout.read()
    shown = b""
    while True:
        try:
            piece = os.read(reader, 65536)
        except OSError:
            break
        if not piece:
            break
        shown += piece
    os.close(reader)
    return started.wait(SECONDS), out, shown.decode()


@check
def at_a_terminal_a_put_of_a_file_shows_how_far_it_is_and_clears_it(trial):
    (trial.folder / "data").write_bytes(bytes(3 * BLOCK + 5))
    with open(trial.folder / "data", "rb") as file:
        status, out, shown = on_a_terminal(trial, "put", "f", content=file)
    same("the status", (status, out[:4]), (0, b"put "))
    true(f"it shows {shown!r}", re.fullmatch(r"(\d+ of 50331653 bytes, \d+ a second, \d+ s left\x1b\[K\r)+\x1b\[K", shown))
    status, out, shown = on_a_terminal(trial, "put", "g", content=subprocess.DEVNULL)
    same("without a length", (status, shown), (0, ""))
    folder = folder_of(trial, {"a": bytes(2 * BLOCK + 5), "b": bytes(BLOCK + 5)})
    status, out, shown = on_a_terminal(trial, "import", str(folder))
    same("the status of an import", (status, out.count(b"\n")), (0, 2))
    true(f"an import shows {shown!r}", re.fullmatch(r"((\d+ of (33554437|16777221) bytes, \d+ a second, \d+ s left\x1b\[K\r)+\x1b\[K)+", shown))
