"""All files go out into a folder, each under its name, under the name plfs_copy."""

import hashlib
import os
import re
import shutil
import signal
import time

from copies_in import BLOCK, GIGABYTE, KILLS, LONG, USAGE, gets, put_gigabyte, puts, run, start
from imports import folder_of, imports, lines_of, random_contents
from trial import Skipped, check, ignore, listed, same, size_limit, true

# The name of the file that is filled, before it has its own.
FILLED = ".plfs_export"
# The most bytes of memory that an export takes.
MOST_MEMORY = 64 * 2**20


def out_folder(trial, name="out"):
    folder = trial.folder / name
    folder.mkdir()
    return folder


def exports(trial, folder, *words, status=0, err="", root=None, **how):
    """An export that must end so. Its lines are returned."""
    got, out, said = run(trial, "export", str(folder), *words, root=root, **how)
    same(f"the end of export ({out[-300:]!r})", (got, said.replace(str(folder), "DIR")), (status, err))
    return lines_of(out)


def has(folder, contents):
    """The folder has just these files with these bytes."""
    same("what the folder has", sorted(os.listdir(folder)), sorted(contents))
    for name, content in contents.items():
        true(f"{name} has other bytes", (folder / name).read_bytes() == content)


def put_all(trial, contents):
    for name, content in contents.items():
        puts(trial, content, name)


def wanted(contents):
    return [(name, f"got {len(contents[name])}") for name in sorted(contents)]


@check
def a_hundred_files_that_were_imported_are_exported_in_the_order_of_their_names(trial):
    contents = random_contents(trial, 100)
    imports(trial, folder_of(trial, contents), seconds=120)
    before = {path: it for path, it in listed(trial.root).items() if not path.startswith(".plfs/")}
    folder = out_folder(trial)
    same("the lines", exports(trial, folder, seconds=120), wanted(contents))
    has(folder, contents)
    after = {path: it for path, it in listed(trial.root).items() if not path.startswith(".plfs/")}
    same("what lies in ROOT", after, before)
    (trial.folder / "other").mkdir()
    same("an import of them", imports(trial, folder, root=trial.folder / "other", seconds=120), [(name, f"put {len(contents[name])}") for name in sorted(contents)])


@check
def an_export_has_what_cat_writes_of_a_file_with_holes_and_truncates(trial):
    script = "actor a\na open f\na write 0 text:hello\na write 5000000 text:there\na write 3 text:LO!\na close\n"
    same("the script", trial.run(script).status, 0)
    same("the cut", trial.run("", words=("trunc", "f", "4999999")).status, 0)
    folder = out_folder(trial)
    same("the lines", exports(trial, folder), [("f", "got 4999999")])
    status, content, _ = run(trial, "get", "f")
    same("get", (status, len(content)), (0, 4999999))
    has(folder, {"f": content})


@check
def what_is_there_stays_and_with_over_is_replaced(trial):
    contents = {"a": b"new a", "b": b"new b", "c": b"new c"}
    put_all(trial, contents)
    folder = out_folder(trial)
    (folder / "b").write_bytes(b"old b, which is longer")
    (folder / "beside").write_bytes(b"beside")
    same("the lines", exports(trial, folder, status=1), [("a", "got 5"), ("b", "0 refused exists"), ("c", "got 5")])
    has(folder, {**contents, "b": b"old b, which is longer", "beside": b"beside"})
    same("the lines of a second one", exports(trial, folder, status=1), [(name, "0 refused exists") for name in "abc"])
    same("the lines with --over", exports(trial, folder, "--over"), wanted(contents))
    has(folder, {**contents, "beside": b"beside"})


@check
def a_link_is_replaced_itself_and_only_with_over(trial):
    put_all(trial, {"a": b"a", "b": b"b"})
    folder = out_folder(trial)
    (trial.folder / "target").write_bytes(b"target")
    (folder / "a").symlink_to(trial.folder / "target")
    (folder / "b").symlink_to("nowhere")
    same("the lines", exports(trial, folder, status=1), [("a", "0 refused exists"), ("b", "0 refused exists")])
    (folder / FILLED).symlink_to(trial.folder / "target")
    same("the lines with --over", exports(trial, folder, "--over"), [("a", "got 1"), ("b", "got 1")])
    has(folder, {"a": b"a", "b": b"b"})
    same("what the link led to", (trial.folder / "target").read_bytes(), b"target")
    true("a link is left", not any((folder / name).is_symlink() for name in "ab"))


@check
def a_folder_in_the_place_of_a_file_stays_and_the_next_one_follows(trial):
    put_all(trial, {"a": b"a", "b": b"b", "c": b"c"})
    folder = out_folder(trial)
    (folder / "b").mkdir()
    (folder / "b" / "inner").write_bytes(b"inner")
    same("the lines", exports(trial, folder, status=1), [("a", "got 1"), ("b", "0 refused exists"), ("c", "got 1")])
    err = "plfs: DIR/b: open: it is a folder\n"
    same("the lines with --over", exports(trial, folder, "--over", status=6, err=err), [("a", "got 1"), ("b", "failed"), ("c", "got 1")])
    same("what is there", listed(folder), {"a": b"a", "b": None, "b/inner": b"inner", "c": b"c"})


@check
def a_full_disk_fails_the_file_that_it_meets_and_leaves_none_of_it(trial):
    contents = {"a": b"a", "b": trial.random.randbytes(3_000_000), "c": b"c", "d": trial.random.randbytes(2_000_000)}
    put_all(trial, contents)
    folder = out_folder(trial)
    watched = trial.watch([f"fail ENOSPC write 3 */{FILLED}"])
    err = "plfs: DIR/b: write: No space left on device (os error 28)\n"
    same("the lines", exports(trial, folder, status=6, err=err, **watched), [("a", "got 1"), ("b", "failed"), ("c", "got 1"), ("d", "got 2000000")])
    has(folder, {name: contents[name] for name in "acd"})
    same("the lines behind that", exports(trial, folder, status=1), [(name, "got 3000000" if name == "b" else "0 refused exists") for name in "abcd"])
    has(folder, contents)


@check
def a_limit_of_size_fails_the_files_that_are_larger(trial):
    contents = {"a": b"a", "b": trial.random.randbytes(3_000_000), "c": b"c"}
    put_all(trial, contents)
    folder = out_folder(trial)
    (folder / "b").write_bytes(b"old")
    err = "plfs: DIR/b: write: File too large (os error 27)\n"
    limits = [(ignore, signal.SIGXFSZ), (size_limit, 1_000_000)]
    same("the lines", exports(trial, folder, "--over", status=6, err=err, limits=limits), [("a", "got 1"), ("b", "failed"), ("c", "got 1")])
    has(folder, {"a": b"a", "b": b"old", "c": b"c"})


@check
def a_file_that_can_not_be_synced_or_renamed_is_not_kept(trial):
    contents = {"a": b"a", "b": b"b", "c": b"c"}
    put_all(trial, contents)
    for place, (call, said) in enumerate((("sync", "sync"), ("rename", "rename"))):
        folder = out_folder(trial, f"out{place}")
        watched = trial.watch([f"fail EIO {call} 2 */{FILLED}"], name=f"calls{place}")
        err = f"plfs: DIR/b: {said}: Input/output error (os error 5)\n"
        same("the lines", exports(trial, folder, status=6, err=err, **watched), [("a", "got 1"), ("b", "failed"), ("c", "got 1")])
        has(folder, {"a": b"a", "c": b"c"})


@check
def where_the_names_do_not_last_the_status_is_6(trial):
    puts(trial, b"a", "a")
    folder = out_folder(trial)
    watched = trial.watch(["fail EIO sync 1 */out"])
    same("the lines", exports(trial, folder, status=6, err="plfs: DIR: sync: Input/output error (os error 5)\n", **watched), [("a", "got 1")])
    has(folder, {"a": b"a"})


@check
def into_a_folder_that_is_read_only_no_file_is_written_and_each_is_told(trial):
    put_all(trial, {"a": b"a", "b": b"b"})
    folder = out_folder(trial)
    folder.chmod(0o555)
    try:
        err = "".join(f"plfs: DIR/{name}: open: Permission denied (os error 13)\n" for name in "ab")
        same("the lines", exports(trial, folder, status=6, err=err), [("a", "failed"), ("b", "failed")])
        has(folder, {})
    finally:
        folder.chmod(0o755)


@check
def a_folder_that_can_not_be_had_is_status_6_and_nothing_is_done(trial):
    puts(trial, b"a", "a")
    before = listed(trial.root)
    none, file, closed = (trial.folder / name for name in ("none", "file", "closed"))
    file.write_bytes(b"x")
    closed.mkdir()
    closed.chmod(0)
    for folder, why in ((none, "No such file or directory (os error 2)"), (file, "Not a directory (os error 20)"), (closed, "Permission denied (os error 13)")):
        same(f"the end with {folder.name}", run(trial, "export", str(folder)), (6, b"", f"plfs: {folder}: list: {why}\n"))
    true("it was made", not none.exists())
    same("the end into ROOT", run(trial, "export", str(trial.root), "--over"), (4, b"0 fault\n", f"plfs: {trial.root}: in use by another program\n"))
    same("what lies in ROOT", listed(trial.root), before)


@check
def two_exports_into_one_folder_do_not_meet(trial):
    put_all(trial, {f"f{place}": trial.random.randbytes(300_000) for place in range(20)})
    other = trial.folder / "other"
    other.mkdir()
    same("a put", run(trial, "put", "g", content=b"g", root=other)[0], 0)
    folder = out_folder(trial)
    started = start(trial, "export", str(folder), **trial.watch([f"wait 1500 sync 3 */{FILLED}"]))
    while started.poll() is None and len(os.listdir(folder)) < 3:
        time.sleep(0.01)
    same("the other one", run(trial, "export", str(folder), root=other), (6, b"", f"plfs: {folder}: in use by another program\n"))
    out, err = started.communicate(timeout=LONG)
    same("the end of the first", (started.returncode, out.count(b"\n"), err), (0, 20, b""))


@check
def damage_in_one_container_is_told_and_the_others_are_written_out(trial):
    contents = {"a": b"a", "b": b"b", "c": trial.random.randbytes(3_000_000), "d": b"d"}
    put_all(trial, contents)
    (trial.root / "b" / "hostdir.0" / "foreign").write_bytes(b"")
    (trial.root / "c" / "truncs" / "foreign").write_bytes(b"")
    folder = out_folder(trial)
    status, out, err = run(trial, "export", str(folder))
    lines = lines_of(out)
    same("the status", status, 7)
    same("the lines of a and d", [lines[0], lines[3]], [("a", "got 1"), ("d", "got 1")])
    same("the other ones", [(name, rest.split()[:2]) for name, rest in lines[1:3]], [("b", ["0", "damaged"]), ("c", ["0", "damaged"])])
    same("standard error", err, "".join(f"plfs: {name}: {rest[2:]}: restore it from a copy\n" for name, rest in lines[1:3]))
    has(folder, {"a": b"a", "d": b"d"})
    for name, rest in lines[1:3]:
        status, cat, _ = run(trial, "get", name)
        same(f"the status of get {name}", status, 7)
    same("what get b prints", run(trial, "get", "b")[1].decode(), lines[1][1] + "\n")


@check
def damage_beside_a_failed_file_and_one_that_is_there_has_the_greatest_status(trial):
    put_all(trial, {name: name.encode() for name in "abcd"})
    (trial.root / "b" / "hostdir.0" / "foreign").write_bytes(b"")
    folder = out_folder(trial)
    (folder / "a").write_bytes(b"old")
    status, out, err = run(trial, "export", str(folder), **trial.watch([f"fail EIO write 1 */{FILLED}"]))
    same("the end", (status, [rest.split()[:2] for _, rest in lines_of(out)], err.count("\n")), (7, [["0", "refused"], ["0", "damaged"], ["failed"], ["got", "1"]], 2))
    has(folder, {"a": b"old", "d": b"d"})


@check
def damage_of_roots_own_items_is_told_as_by_other_commands(trial):
    puts(trial, b"a", "a")
    (trial.root / ".plfs" / "mounts" / "x").write_bytes(b"")
    folder = out_folder(trial)
    status, out, err = run(trial, "export", str(folder))
    same("the end", (status, out.decode().split()[:2]), (7, ["0", "damaged"]))
    true(f"standard error is {err!r}", err.startswith(f"plfs: {trial.root}/.plfs: damaged ") and err.count("\n") == 1)
    has(folder, {})


@check
def an_export_ends_at_a_failed_store_with_its_line(trial):
    put_all(trial, {"a": b"a", "b": b"b", "c": b"c"})
    folder = out_folder(trial)
    watched = trial.watch(["fail EIO read 1 */b/hostdir.0/log.*"])
    status, out, err = run(trial, "export", str(folder), **watched)
    same("the end", (status, lines_of(out)), (4, [("a", "got 1"), ("b", "0 fault")]))
    true(f"standard error is {err!r}", err.startswith(f"plfs: {trial.root}/b/") and err.count("\n") == 1)
    has(folder, {"a": b"a"})


@check
def an_export_whose_output_is_broken_is_status_6_and_ends(trial):
    put_all(trial, {"a": b"a", "b": b"b"})
    folder = out_folder(trial)
    with open("/dev/full", "wb") as full:
        status, _, err = run(trial, "export", str(folder), stdout=full)
    same("the end", (status, err), (6, "plfs: standard output: write: No space left on device (os error 28)\n"))
    has(folder, {"a": b"a"})


@check
def an_empty_root_has_nothing_to_write_out(trial):
    folder = out_folder(trial)
    same("the lines", exports(trial, folder), [])
    has(folder, {})


@check
def several_folders_are_written_out_into_one(trial):
    folders = [trial.folder / name for name in ("one", "two", "three")]
    for folder in folders:
        folder.mkdir()
    root = ":".join(map(str, folders))
    contents = {f"f{place}": trial.random.randbytes(100 + place) for place in range(12)}
    imports(trial, folder_of(trial, contents), root=root)
    folder = out_folder(trial)
    same("the lines", exports(trial, folder, root=root), wanted(contents))
    has(folder, contents)


@check
def words_that_are_no_export_print_the_usage_line(trial):
    folder = out_folder(trial)
    for words in (("export",), ("export", str(folder), "7"), ("export", str(folder), "--over", "--over"), ("export", str(folder), "7", "--over"), ("export", str(folder), "--from", "f"), ("exports", str(folder))):
        same(f"the end of {words}", run(trial, *words), (2, USAGE.encode(), ""))
    trial.is_untouched()


@check
def an_export_that_is_killed_leaves_whole_files_alone_and_goes_on_where_it_is_begun_again(trial):
    contents = {f"f{place:02}": trial.random.randbytes(trial.random.choice((1000, 300_000, BLOCK + 5))) for place in range(10)}
    put_all(trial, contents)
    killed = 0
    for place in range(trial.kills or KILLS):
        folder = out_folder(trial, f"out{place}")
        started = start(trial, "export", str(folder))
        time.sleep(trial.random.random() * 0.5)
        started.kill()
        out, _ = started.communicate()
        killed += started.returncode == -signal.SIGKILL
        lines = [line.split(" ", 1) for line in out.decode().split("\n")[:-1]]
        same("the lines", lines, [[name, f"got {len(contents[name])}"] for name in sorted(contents)[: len(lines)]])
        there = sorted(it for it in os.listdir(folder) if it != FILLED)
        true(f"{there} beside {len(lines)} lines", there == sorted(contents)[: len(there)] and len(there) in (len(lines), len(lines) + 1))
        for name in there:
            true(f"{name} isn't whole", (folder / name).read_bytes() == contents[name])
        status = 1 if there else 0
        same("the lines behind it", exports(trial, folder, status=status), [(name, "0 refused exists" if name in there else f"got {len(contents[name])}") for name in sorted(contents)])
        has(folder, contents)
        shutil.rmtree(folder)
    if not killed:
        raise Skipped("no export was killed")


def peak_of(process):
    """The most memory that a process has had until it ends, in KiB, as the system counts it from the start of its program."""
    peak = 0
    while process.poll() is None:
        with open(f"/proc/{process.pid}/status") as status:
            found = re.search(r"VmHWM:\s+(\d+)", status.read())
        peak = int(found[1]) if found else peak
        time.sleep(0.01)
    return peak


@check
def a_gigabyte_is_written_out_in_little_memory(trial):
    sum_in, block = put_gigabyte(trial, "f", 4), 2**20
    folder = out_folder(trial)
    started = start(trial, "export", str(folder))
    peak = peak_of(started)
    out, err = started.communicate()
    same("the end of export", (started.returncode, out, err), (0, f"f got {GIGABYTE}\n".encode(), b""))
    true(f"it took {peak} KiB of memory", 0 < peak * 1024 <= MOST_MEMORY)
    sum_out = hashlib.blake2b()
    with open(folder / "f", "rb") as file:
        while piece := file.read(block):
            sum_out.update(piece)
    same("the sum of what was written out", sum_out.hexdigest(), sum_in)
