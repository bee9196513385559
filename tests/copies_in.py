"""A user's own bytes come in by standard input, and go out again, under the name plfs_copy."""

import hashlib
import os
import re
import shutil
import signal
import subprocess
import time

from trial import SECONDS, Skipped, check, connected, ignore, listed, masked, reset, same, size_limit, true

USAGE = "usage: plfs_copy ROOT put NAME [HOST] [--over] [--from FILE..]|get NAME|import DIR [HOST] [--over]|export DIR [--over]\n"
# The bytes of one write.
BLOCK = 2**24
# The most bytes that one read asks of the input.
PART = 2**17
# A copy of a gigabyte may take so long.
LONG = 300
GIGABYTE = 2**30
KILLS = 12


def start(trial, *words, root=None, limits=(), closed=(), **how):
    """Starts the program under the name plfs_copy."""

    def before():
        for limit, most in limits:
            limit(most)
        for number in closed:
            os.close(number)

    how = {"stdin": subprocess.DEVNULL, "stdout": subprocess.PIPE, "stderr": subprocess.PIPE, "cwd": trial.folder, **how}
    how.setdefault("env", {"PATH": os.environ.get("PATH", "/usr/bin:/bin"), "LANG": "C.UTF-8"})
    return subprocess.Popen(["plfs_copy", trial.root if root is None else root, *words], executable=trial.program, preexec_fn=before, **how)


def run(trial, *words, content=None, seconds=SECONDS, **how):
    """Runs it on these bytes, through a pipe, to its end: the status, the bytes that it printed, and what it said."""
    if content is not None:
        how["stdin"] = subprocess.PIPE
    started = start(trial, *words, **how)
    try:
        out, err = started.communicate(content, timeout=seconds)
    except subprocess.TimeoutExpired:
        started.kill()
        started.communicate()
        true(f"{words} had not ended after {seconds} seconds", False)
    return started.returncode, out, (err or b"").decode("utf-8", "backslashreplace")


def puts(trial, content, *words, wanted=None, status=0, **how):
    """A put that must end so. The writer's id is returned."""
    got, out, err = run(trial, "put", *words, content=content, **how)
    text = out.decode()
    size = len(content) if wanted is None else wanted
    same(f"the status of put ({text!r}, {err!r})", got, status)
    said = re.fullmatch(r"put (\d+) (\d+)\n", text)
    true(f"put printed {text!r}", said is not None)
    same("how many bytes were put", int(said[1]), size)
    if status == 0:
        same("standard error", err, "")
    return int(said[2])


def gets(trial, content, name="f"):
    status, out, err = run(trial, "get", name)
    same(f"the end of get ({err!r})", (status, err), (0, ""))
    true(f"get wrote {len(out)} bytes that differ from the {len(content)} wanted", out == content)


def refused(trial, line, *words, status=1, content=b"new"):
    same(f"the end of {words}", run(trial, *words, content=content)[:2], (status, line.encode()))


@check
def bytes_that_are_put_are_got_again_in_blocks_of_2_to_the_24(trial):
    content = trial.random.randbytes(3 * BLOCK + 7)
    for place, size in enumerate((0, 1, 4097, BLOCK - 1, BLOCK, BLOCK + 1, len(content))):
        name = f"f{place}"
        writer = puts(trial, content[:size], name)
        gets(trial, content[:size], name)
        same(f"the log of {size} bytes", (trial.root / name / "hostdir.0" / f"log.0.{writer}").read_bytes(), content[:size])
        entries = (size + BLOCK - 1) // BLOCK
        same(f"the index of {size} bytes", (trial.root / name / "hostdir.0" / f"index.0.{writer}").stat().st_size, 40 * entries)
        same("who has it open", os.listdir(trial.root / name / "openhosts"), [])


@check
def a_file_is_put_as_well_as_a_pipe_and_read_by_scripts(trial):
    (trial.folder / "in").write_bytes(b"hello")
    with open(trial.folder / "in", "rb") as file:
        status, out, err = run(trial, "put", "f", stdin=file)
    same("the end", (status, out[:6], err), (0, b"put 5 ", ""))
    trial.holds()
    same("cat", trial.run("", words=("cat", "f")).out, "hello")


def put_gigabyte(trial, name, room):
    """Puts a gigabyte of random bytes, where the disk has room for so many gigabytes, and returns their sum."""
    if shutil.disk_usage(trial.folder).free < room * GIGABYTE:
        raise Skipped("the disk has too little room")
    sum_in, block = hashlib.blake2b(), 2**20
    started = start(trial, "put", name, stdin=subprocess.PIPE)
    for _ in range(GIGABYTE // block):
        piece = os.urandom(block)
        sum_in.update(piece)
        started.stdin.write(piece)
    out, err = started.communicate(timeout=LONG)
    same("the end of put", (started.returncode, out.split()[:2], err), (0, [b"put", str(GIGABYTE).encode()], b""))
    return sum_in.hexdigest()


@check
def a_gigabyte_comes_in_and_goes_out_again(trial):
    sum_in, block = put_gigabyte(trial, "f", 3), 2**20
    sum_out, count = hashlib.blake2b(), 0
    started = start(trial, "get", "f")
    while piece := started.stdout.read(block):
        sum_out.update(piece)
        count += len(piece)
    started.stderr.close()
    same("the end of get", (started.wait(LONG), count), (0, GIGABYTE))
    same("the sum of what went out", sum_out.hexdigest(), sum_in)


@check
def a_file_that_is_there_is_refused_and_with_over_it_is_replaced(trial):
    puts(trial, b"first and longer", "f")
    before = listed(trial.root / "f")
    refused(trial, "0 refused exists\n", "put", "f")
    refused(trial, "0 refused exists\n", "put", "f", "7")
    same("what lies in the container", listed(trial.root / "f"), before)
    gets(trial, b"first and longer")
    puts(trial, b"second", "f", "--over")
    gets(trial, b"second")
    puts(trial, b"third, which is the longest", "f", "3", "--over")
    gets(trial, b"third, which is the longest")
    puts(trial, b"", "f", "--over")
    gets(trial, b"")
    puts(trial, b"none was there", "g", "--over")
    gets(trial, b"none was there", "g")


@check
def over_a_file_that_a_writer_has_open_is_refused_until_it_is_recovered(trial):
    ended = trial.ends(0, "actor a\na open f\na write 0 text:hello\n")
    writer = ended.out.split()[2]
    refused(trial, f"0 refused busy 0 {writer}\n", "put", "f", "--over")
    trial.holds(b"")
    trial.ends(0, "", words=("recover", "f"))
    puts(trial, b"new", "f", "--over")
    gets(trial, b"new")


@check
def the_host_of_the_writer_is_the_one_that_is_said(trial):
    for host in (0, 7, 2**32 - 1):
        writer = puts(trial, b"x", f"f{host}", str(host))
        true(f"no log of host {host}", (trial.root / f"f{host}" / f"hostdir.{host % 32}" / f"log.{host}.{writer}").is_file())


@check
def words_that_are_no_command_of_plfs_copy_print_its_usage_line(trial):
    for words in ("", "put", "get", "put f 4294967296", "put f 07", "put f -1", "put f over", "put f 1 2", "put f --over 1", "put f 1 --over 2", "put .f", "put -f", "put f/g", f"put {65 * 'f'}",
                  "get f g", "get .f", "cat f", "play", "put f 1 over", "PUT f", "put f --from", "get f --from in", "put --from in", "import", "import d e", "import d 07", "import d --over 1",
                  "import d --from in", "import d --from", "export", "import d --over --over"):
        refused(trial, USAGE, *words.split(), status=2)
    same("without any word", run(trial, root=""), (2, USAGE.encode(), ""))
    trial.is_untouched()
    for words in ("put", "get"):
        same(f"plfs with {words}", trial.run("", words=(words, "f")).status, 2)


@check
def a_file_that_is_not_there_is_told_by_get(trial):
    refused(trial, "0 refused no-file\n", "get", "f")


@check
def without_standard_input_nothing_is_put(trial):
    status, out, err = run(trial, "put", "f", closed=[0], stdin=None)
    same("the end", (status, out, err), (5, b"", "plfs: standard input: read: it is closed\n"))
    trial.is_untouched()
    puts(trial, b"hello", "f")
    same("the status with --over", run(trial, "put", "f", "--over", closed=[0], stdin=None)[0], 5)
    gets(trial, b"hello")


@check
def an_input_that_fails_in_its_middle_is_status_5_and_what_came_before_is_kept(trial):
    content = trial.random.randbytes(BLOCK + 100_000)
    (trial.folder / "in").write_bytes(content)
    # the first read asks for no byte: it shows whether any can be read
    for call, kept in (("2", 0), ("4", 2 * PART), (f"{BLOCK // PART + 3}", BLOCK + 100_000)):
        name = f"f{call}"
        with open(trial.folder / "in", "rb") as file:
            status, out, err = run(trial, "put", name, stdin=file, **trial.watch([f"fail EIO read {call} */in"]))
        same(f"the end ({out!r})", (status, err), (5, "plfs: standard input: read: Input/output error (os error 5)\n"))
        same("how many bytes were put", int(out.split()[1]), kept)
        gets(trial, content[:kept], name)
        same("who has it open", os.listdir(trial.root / name / "openhosts"), [])


@check
def a_read_that_fails_while_a_thread_reads_ahead_is_told_or_made_again(trial):
    """Whichever thread makes it. What was written is a front of the file, and all of it where the status is 0."""
    content = trial.random.randbytes(2**23 + 5)
    puts(trial, content, "f")
    told = []
    for call in range(1, 24):
        status, out, err = run(trial, "get", "f", **trial.watch([f"fail EIO read {call} */log.0.*"]))
        true(f"at read {call} other bytes came out, or the status is {status}", status in (0, 4) and out == content[: len(out)])
        true(f"at read {call} bytes are missing, and nothing is told ({err!r})", (status == 4) == (len(out) < len(content)) == bool(err))
        told.append(status)
    true("no fault was told, or each", 0 in told and 4 in told)


@check
def an_input_over_a_network_that_is_reset_in_its_middle_is_status_5_and_what_came_before_is_kept(trial):
    content = trial.random.randbytes(BLOCK + 100_000)
    sender, receiver = connected()
    with receiver:
        started = start(trial, "put", "f", stdin=receiver)
    sender.sendall(content)
    end = time.monotonic() + SECONDS
    while BLOCK not in [it.stat().st_size for it in (trial.root / "f" / "hostdir.0").glob("log.0.*")]:
        true("the first block was not written in time", time.monotonic() < end)
        time.sleep(0.01)
    reset(sender)
    out, err = started.communicate(timeout=SECONDS)
    same(f"the end ({out!r})", (started.returncode, err), (5, b"plfs: standard input: read: Connection reset by peer (os error 104)\n"))
    kept = int(out.split()[1])
    true(f"{kept} bytes were put", BLOCK <= kept <= len(content))
    gets(trial, content[:kept])
    same("who has it open", os.listdir(trial.root / "f" / "openhosts"), [])


@check
def an_input_of_short_reads_fills_its_blocks(trial):
    content = trial.random.randbytes(BLOCK + 5)
    (trial.folder / "in").write_bytes(content)
    with open(trial.folder / "in", "rb") as file:
        status, out, err = run(trial, "put", "f", stdin=file, seconds=LONG, **trial.watch(["short 65521 read 1+ */in"]))
    same("the end", (status, int(out.split()[1]), err), (0, len(content), ""))
    gets(trial, content)
    same("how many entries", (trial.root / "f" / "hostdir.0" / f"index.0.{int(out.split()[2])}").stat().st_size, 80)


@check
def a_full_disk_is_a_fault_and_after_recover_a_front_is_there(trial):
    content = trial.random.randbytes(2 * BLOCK + 1000)
    status, out, err = run(trial, "put", "f", content=content, limits=[(ignore, signal.SIGXFSZ), (size_limit, BLOCK + BLOCK // 2)])
    same(f"the end ({err!r})", (status, out), (4, b"0 fault\n"))
    true(f"it said {err!r}", "File too large" in err and "log.0." in err)
    trial.ends(0, "", words=("recover", "f"))
    gets(trial, content[:BLOCK])
    puts(trial, content, "f", "--over")
    gets(trial, content)


@check
def a_broken_output_of_the_line_is_status_6_and_the_file_is_there(trial):
    with open("/dev/full", "wb") as full:
        same("the status", run(trial, "put", "f", content=b"hello", stdout=full)[0], 6)
    gets(trial, b"hello")


@check
def a_put_that_is_killed_leaves_a_front_that_recover_mends(trial):
    content = trial.random.randbytes(6 * BLOCK + 17)
    (trial.folder / "in").write_bytes(content)
    killed = 0
    for turn in range(trial.kills or KILLS):
        name = f"f{turn}"
        with open(trial.folder / "in", "rb") as file:
            started = start(trial, "put", name, stdin=file)
            time.sleep(trial.random.random() * 0.12)
            started.kill()
            out, _ = started.communicate()
        killed += started.returncode == -signal.SIGKILL
        if not (trial.root / name / "access").exists():
            puts(trial, content, name, "--over")
            continue
        trial.ends(0, "", words=("recover", name))
        status, front, err = run(trial, "get", name)
        same(f"the end of get ({err!r})", (status, err), (0, ""))
        true(f"{len(front)} bytes that are no front of whole blocks", front == content[: len(front)] and (len(front) % BLOCK == 0 or len(front) == len(content)))
        if started.returncode == 0:
            same("the bytes of a put that ended well", len(front), len(content))
        puts(trial, content, name, "--over")
        gets(trial, content, name)
        shutil.rmtree(trial.root / name)
    if not killed:
        raise Skipped("no put was killed")
    trial.note = f"{killed} of {turn + 1} were killed"


@check
def a_get_whose_output_ends_early_is_status_6(trial):
    puts(trial, bytes(3 * 2**20), "f")
    reading, writing = os.pipe()
    os.close(reading)
    with open(writing, "wb") as pipe:
        same("the status", run(trial, "get", "f", stdout=pipe)[0], 6)


def three_folders(trial):
    """Three empty folders, and the word that names them as one ROOT."""
    folders = [trial.folder / name for name in ("one", "two", "three")]
    for folder in folders:
        folder.mkdir()
    return folders, ":".join(map(str, folders))


@check
def several_folders_take_what_is_put(trial):
    folders, root = three_folders(trial)
    for name in ("a", "b", "c", "d"):
        same(f"put {name}", run(trial, "put", name, root=root, content=name.encode())[0], 0)
    for name in ("a", "b", "c", "d"):
        same(f"get {name}", run(trial, "get", name, root=root), (0, name.encode(), ""))
    same("how many containers", sum((folder / name).is_dir() for folder in folders for name in ("a", "b", "c", "d")), 4)


@check
def a_file_stays_until_a_new_one_is_whole_where_that_is_put_beside_it_and_renamed(trial):
    """With --over it doesn't: it is cut before the new bytes are there, and a put that fails leaves neither."""
    content, limits = bytes(BLOCK // 4) * 3, [(ignore, signal.SIGXFSZ), (size_limit, BLOCK // 4)]
    for name in ("f", "g"):
        puts(trial, b"old", name)
    same("the put beside it", run(trial, "put", "f.new", content=content, limits=limits)[:2], (4, b"0 fault\n"))
    gets(trial, b"old", "f")
    same("the put over it", run(trial, "put", "g", "--over", content=content, limits=limits)[:2], (4, b"0 fault\n"))
    gets(trial, b"", "g")
    same("the recovery", trial.run("", words=("recover", "f.new")).status, 0)
    puts(trial, content, "f.new", "--over")
    for old, new in (("f", "f.old"), ("f.new", "f")):
        same(f"the rename of {old}", trial.run("", words=("rename", old, new)).out, "0 renamed\n")
    gets(trial, content, "f")
    gets(trial, b"old", "f.old")


@check
def a_folder_in_use_is_told_and_the_input_is_not_read(trial):
    started = start(trial, "put", "f", stdin=subprocess.PIPE)
    started.stdin.write(b"hello")
    started.stdin.flush()
    end = time.monotonic() + SECONDS
    while not (trial.root / "f").exists():
        true("the first put had not begun in time", time.monotonic() < end)
        time.sleep(0.01)
    status, out, err = run(trial, "put", "g", content=b"other")
    same("the second put", (status, out, masked(err)), (4, b"0 fault\n", f"plfs: {trial.root}: in use by another program\n"))
    out, _ = started.communicate()
    same("the first put", (started.returncode, out.split()[:2]), (0, [b"put", b"5"]))
    gets(trial, b"hello")
