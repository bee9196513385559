"""Small files that are packed into one container, read back and named."""

import re
import shutil
import signal

from faults import UNSYNCED, below, is_reason, numbered
from kills import CHANGING, killed_when
from locks import Held, is_in_use
from small import ends_by_itself
from trial import SECONDS, WORK, check, listed, same, size_limit, true
from units import CONTENT_BYTES, REGION, REGIONS, Bad, View, unit

NO_FILE = "0 refused no-file\n"
# what helps where a place of a file is of no small file
UNLESS_MORE = "restore it from a copy, unless more than small files was written to it"
# Of a container so many files are written out.
SOME = 8
MOST_INPUT = 2**20
# So many packings into one container are killed one behind the other.
TURNS = 12


def line(name, content):
    """A line of the input of `pack`."""
    return f"{name} {content.hex() or '-'}\n"


def lines(files):
    return "".join(line(name, content) for name, content in files)


def packs(trial, name, region, files, said, status=0, **how):
    """Packs files, and asks for what is said."""
    return trial.ends(status, files if isinstance(files, str) else lines(files), words=("pack", name, str(region)), lines=said, **how)


def told(trial, *words, script="", seconds=SECONDS, **how):
    """The status of a command, and the bytes that it writes, as they are."""
    started = trial.start(script, words=tuple(map(str, words)), **how)
    try:
        out, _ = started.communicate(timeout=seconds)
    finally:
        started.kill()
    return started.returncode, out


def view(trial, name):
    """The file of the container, as a reader tells it."""
    status, out = told(trial, "play", script=f"actor a\na ropen {name}\na map\n")
    same("the status of a reader", status, 0)
    reader, pieces = out.decode().splitlines()
    return View(trial.root / name, int(reader.split()[2]), pieces)


def is_unpacked(trial, name, files):
    """These files are named, each is written out, of many some, and no other name is a file."""
    listed_names = ",".join(it.decode() for it in sorted(files)) or "-"
    same("the names", told(trial, "names", name), (0, f"names {listed_names}\n".encode()))
    for file in trial.random.sample(sorted(files), min(len(files), SOME)):
        same(f"the content of {file}", told(trial, "unpack", name, file.decode()), (0, files[file]))
    same("a file that isn't there", told(trial, "unpack", name, "not-there"), (1, NO_FILE.encode()))


def as_read_by_hand(trial, name):
    """What `names` and `unpack` tell is what the container's logs say. Returns the files, or the place of what is no small file."""
    seen = view(trial, name)
    try:
        files = seen.files_of()
        is_unpacked(trial, name, files)
        return files
    except Bad as bad:
        for words in (("names", name), ("unpack", name, "a")):
            same(f"{words} of a bad unit", told(trial, *words), (7, f"0 damaged view {bad.place}\n".encode()))
        return bad.place
    finally:
        seen.close()


def is_damaged(trial, file, damage, help):
    """Each command of small files tells this damage of the container p, and what helps against it."""
    for words in (("unpack", "p", file), ("names", "p"), ("pack", "p", "0")):
        ended = trial.ends(7, "b 6869\n", words=words, lines=f"0 {damage}\n")
        same(f"standard error of {words}", ended.err, f"plfs: {trial.root}/p: {damage}: {help}\n")


@check
def small_files_that_are_packed_are_written_out_and_named(trial):
    packs(trial, "p", 0, "a 6869\nb -\n", "packed 2 end 36\n")
    same("the bytes of the units", told(trial, "cat", "p"), (0, unit(b"a", b"hi") + unit(b"b", b"")))
    is_unpacked(trial, "p", {b"a": b"hi", b"b": b""})
    same("a file that isn't there", told(trial, "unpack", "p", "z"), (1, NO_FILE.encode()))


@check
def a_container_whose_first_byte_is_of_no_small_file_is_damage_of_the_view(trial):
    trial.ends(0, "actor a\na open p\na write 0 text:A\na close\n")
    is_damaged(trial, "z", "damaged view 0", UNLESS_MORE)
    # The scan of one region tells nothing of another.
    packs(trial, "p", 1, "a 6869\n", f"packed 1 end {REGION + 19}\n")
    same("the whole is as bad as before", as_read_by_hand(trial, "p"), 0)


@check
def a_second_packing_goes_on_where_the_first_ended_and_its_files_count(trial):
    packs(trial, "p", 0, [("a", b"first"), ("b", b"kept")], "packed 2 end 43\n")
    packs(trial, "p", 0, [("a", b"second"), ("c", bytes(range(256)))], f"packed 2 end {43 + 23 + 273}\n")
    is_unpacked(trial, "p", {b"a": b"second", b"b": b"kept", b"c": bytes(range(256))})
    # In one packing the later file of a name counts, and a lower region is no older than a higher one.
    packs(trial, "p", 2, [("b", b"1"), ("b", b"2")], f"packed 2 end {2 * REGION + 36}\n")
    packs(trial, "p", 0, [("c", b"")], f"packed 1 end {339 + 17}\n")
    is_unpacked(trial, "p", {b"a": b"second", b"b": b"2", b"c": b""})
    same("by hand", as_read_by_hand(trial, "p"), {b"a": b"second", b"b": b"2", b"c": b""})


@check
def an_input_without_lines_makes_a_container_without_small_files(trial):
    packs(trial, "p", 3, "", f"packed 0 end {3 * REGION}\n")
    is_unpacked(trial, "p", {})
    for words in (("names", "q"), ("unpack", "q", "a")):
        same(f"{words} of no container", told(trial, *words), (1, NO_FILE.encode()))
    trial.ends(0, "", words=("ls",), lines="0 ls p\n")


@check
def names_are_listed_by_their_bytes_and_may_have_64_of_them(trial):
    names = ["b", "a.", "a-", "a", "_", "B", "9", "a" * 64]
    packs(trial, "p", 0, [(name, name.encode()) for name in names], f"packed 8 end {8 * 16 + 2 * sum(map(len, names))}\n")
    is_unpacked(trial, "p", {name.encode(): name.encode() for name in names})


# An input, and the line that tells its first fault.
FAULTS = {
    "a" * (MOST_INPUT + 1): "0 long",
    "\n" * (MOST_INPUT + 1): "0 long",
    "\n": "1 spaces",
    "a 68\n\nb 69\n": "2 spaces",
    "a  68\n": "1 spaces",
    " a 68\n": "1 spaces",
    "a 68 \n": "1 spaces",
    ".a  6 8\n": "1 spaces",
    "a\n": "1 count",
    "a 68 69\n": "1 count",
    ".a 6 8\n": "1 count",
    ".a 68\n": "1 name",
    "-a 68\n": "1 name",
    "a/b 68\n": "1 name",
    f"{'a' * 65} 68\n": "1 name",
    "# 68\n": "1 name",
    ".a 6\n": "1 name",
    "a 6\n": "1 data",
    "a 6G\n": "1 data",
    "a 6A\n": "1 data",
    "a --\n": "1 data",
    "a 68-\n": "1 data",
    "a 68\r\n": "1 data",
    "a 68\nb 6869\nc 6": "3 data",
    "a 6\n\n": "1 data",
}


@check
def each_fault_of_the_input_is_told_and_nothing_is_done(trial):
    for text, fault in FAULTS.items():
        packs(trial, "p", 0, text, f"pack {fault}\n", 2)
    trial.is_untouched()


@check
def an_input_of_2_to_the_20_bytes_is_packed_and_its_last_line_may_lack_its_line_feed(trial):
    content = trial.random.randbytes(MOST_INPUT // 2 - 2)
    text = line("aa", content)
    same("the length of the input", len(text), MOST_INPUT)
    packs(trial, "p", 0, text, f"packed 1 end {18 + len(content)}\n")
    packs(trial, "p", 0, "b 68", f"packed 1 end {18 + len(content) + 18}\n")
    is_unpacked(trial, "p", {b"aa": content, b"b": b"h"})


@check
def words_that_are_no_command_of_small_files_print_the_usage_line(trial):
    for words in ("pack p", "pack p 256", "pack p 00", "pack p +1", "pack p -1", "pack p x", "pack .p 0", "pack p 0 0", "unpack p", "unpack p .a", "unpack p a b", "names", "names p q"):
        ended = trial.ends(2, "a 68\n", words=tuple(words.split()))
        true(f"{words} printed {ended.out!r}", ended.out.startswith("usage: ") and ended.out.count("\n") == 1)
    trial.is_untouched()


# What is no small file, as the last bytes of a container.
BAD = [
    b"A",
    (65).to_bytes(8, "little") + bytes(8) + b"a" * 65,
    (1).to_bytes(8, "little") + (CONTENT_BYTES + 1).to_bytes(8, "little") + b"a" + bytes(16),
    unit(b".a", b"hi"),
    unit(b"-", b"hi"),
    unit(b"a/b", b"hi"),
    unit(b"a\n", b"hi"),
    unit(b"a", b"hi")[:-1],
    unit(b"a", b"hi")[:16],
    unit(b"a", b"hi")[:9],
    unit(b"a", b"hi")[:1],
    bytes(7) + b"\1",
    b"\xff" * 24,
]


@check
def what_is_no_small_file_is_told_by_its_first_byte_in_the_file(trial):
    for number, bad in enumerate(BAD):
        for region, first in ((0, b""), (0, unit(b"ok", b"fine")), (1, unit(b"ok", b"fine"))):
            name = f"p{number}.{region}.{len(first)}"
            place = region * REGION
            trial.ends(0, f"actor a\na open {name}\na write {place} hex:{(first + bad).hex()}\na close\n")
            same(f"the place of {bad[:20]}", as_read_by_hand(trial, name), place + len(first))
    # The first of several, by regions.
    packs(trial, "q", 1, "a 68\n", f"packed 1 end {REGION + 18}\n")
    trial.ends(0, f"actor a\na open q\na write {2 * REGION} text:A\na write {REGION + 18} text:A\na close\n")
    same("the first of two", as_read_by_hand(trial, "q"), REGION + 18)


@check
def behind_eight_zeros_a_region_has_no_small_file(trial):
    packs(trial, "p", 0, "a 6869\n", "packed 1 end 19\n")
    trial.ends(0, f"actor a\na open p\na write 27 hex:{unit(b'b', b'').hex()}\na close\n")
    same("behind eight zeros", as_read_by_hand(trial, "p"), {b"a": b"hi"})
    # A packing puts its units there, up to the bytes that stand behind: these are then a unit as any other.
    packs(trial, "p", 0, "c -\n", "packed 1 end 36\n")
    same("over what stood there", as_read_by_hand(trial, "p"), 36)


@check
def truncates_cut_small_files_off_and_zeros_behind_the_end_are_none(trial):
    packs(trial, "p", 0, [("a", b"hi"), ("b", b"there")], "packed 2 end 41\n")
    trial.ends(0, "", words=("trunc", "p", "100"))
    same("a longer file", as_read_by_hand(trial, "p"), {b"a": b"hi", b"b": b"there"})
    trial.ends(0, "", words=("trunc", "p", "40"))
    same("a unit that passes the file's end", as_read_by_hand(trial, "p"), 19)
    trial.ends(0, "", words=("trunc", "p", "19"))
    same("the unit before it", as_read_by_hand(trial, "p"), {b"a": b"hi"})
    packs(trial, "p", 0, "c 68\n", "packed 1 end 37\n")
    # A longer file makes the zeros behind a broken unit its content.
    trial.ends(0, "", words=("trunc", "p", "36"))
    trial.ends(0, "", words=("trunc", "p", "1000"))
    same("zeros as content", as_read_by_hand(trial, "p"), {b"a": b"hi", b"c": b"\0"})


def filled(trial, name, region, left):
    """A container by hand with units of zeros in this region, up to so many bytes before its end. Its one log is holes."""
    writer = 2**32 + 1
    container = trial.root / name
    for folder in (".plfs/mounts", *(f"{name}/{it}" for it in ("openhosts", "metadata", "truncs", "flats", "hostdir.0"))):
        (trial.root / folder).mkdir(parents=True, exist_ok=True)
    for file in (".plfs/mounts/1", f"{name}/access"):
        (trial.root / file).touch()
    sizes = []
    while sum(sizes) < REGION - left:
        sizes.append(min(CONTENT_BYTES, max(REGION - left - sum(sizes) - 17, 0)) + 17)
        # A last unit has 17 bytes at the least: the one before it makes room.
        over = sum(sizes) - (REGION - left)
        if over > 0:
            sizes[-2] -= over
    place = 0
    with open(container / "hostdir.0" / f"log.0.{writer}", "wb") as log, open(container / "hostdir.0" / f"index.0.{writer}", "wb") as index:
        for number, size in enumerate(sizes):
            log.seek(place)
            log.write(unit(b"z", bytes(size - 17))[:17])
            index.write(b"".join(it.to_bytes(8, "little") for it in (region * REGION + place, size, place, number + 1, writer)))
            place += size
        log.truncate(place)
    (container / "metadata" / f"{region * REGION + place}.{place}.{len(sizes)}.0.{writer}").touch()


def is_full(trial, region, left, content):
    """Of two files the first is put at the end of the region, and the second would pass it. All of the region is scanned once."""
    filled(trial, "p", region, left)
    status, out = told(trial, "pack", "p", region, script=lines([("a", content), ("b", b"")]), seconds=10 * SECONDS)
    same("the end", (status, out), (1, b"0 refused region-full\n"))
    seen = view(trial, "p")
    units, end = seen.region(region)
    same("the last file", (units[-1].name, seen.content(units[-1])), (b"a", content))
    seen.close()
    same("what is left open", list((trial.root / "p" / "openhosts").iterdir()), [])
    return end


@check
def a_small_file_that_would_pass_its_region_is_refused_and_those_before_it_are_kept(trial):
    same("the end of the last file", is_full(trial, REGIONS - 1, 25 + 7, b"8 bytes."), REGIONS * REGION - 7)


@check
def a_small_file_that_ends_with_its_region_is_put(trial):
    same("the end of the last file", is_full(trial, 0, 24, b"7 bytes"), REGION)
    packs(trial, "p", 1, [("b", b"next")], f"packed 1 end {REGION + 21}\n")


FILES = [(f"f{number}", bytes([number]) * number) for number in range(90)]
ENDS = [sum(16 + len(name) + len(content) for name, content in FILES[: number + 1]) for number in range(len(FILES))]


@check
def each_small_file_is_one_write_and_all_are_synced_before_they_are_told(trial):
    with open(trial.folder / "out", "wb") as out:
        ended, calls = trial.watched(lines(FILES), words=("pack", "p", "0"), stdout=out)
    same("the end", (ended.status, ended.err), (0, ""))
    same("what is said", (trial.folder / "out").read_text(), f"packed {len(FILES)} end {ENDS[-1]}\n")
    puts = [it for it in calls if it.kind == "write" and "/log." in it.path]
    same("the writes", [(int(it.more[0]), it.end) for it in puts], [(begin, end - begin) for begin, end in zip([0, *ENDS], ENDS)])
    order = [(it.kind, it.path.rpartition("/")[2].partition(".")[0]) for it in calls]
    last = max(number for number, it in enumerate(order) if it == ("write", "log"))
    synced = [it for it in order[last:] if it[0] == "sync" or it == ("write", "index")]
    true(f"behind the last write came {synced}", synced[:3] == [("sync", "log"), ("write", "index"), ("sync", "index")])
    same("what came last", [it[0] for it in order if it[0] == "sync" or it == ("write", "out")][-1], "write")


@check
def of_ten_thousand_files_one_is_written_out_with_each_byte_of_its_container_read_once(trial):
    files = [(f"f{number:04d}", b"0123456789" * (number % 7)) for number in range(9800)]
    packs(trial, "p", 0, files, None)
    packs(trial, "p", 1, files[:200], None)
    logs = {str(path): path.stat().st_size for path in (trial.root / "p").glob("hostdir.0/log.*")}
    same("the logs", len(logs), 2)
    for words, content in ((("names", "p"), []), (("unpack", "p", "f1233"), [10])):
        _, calls = trial.watched("", words=words)
        read = [(it.path, int(it.more[0]), it.end) for it in calls if it.kind == "read" and "/log." in it.path]
        scan, after = read[: len(read) - len(content)], read[len(read) - len(content) :]
        same(f"the bytes that {words} reads behind the scan", [length for _, _, length in after], content)
        # Within a log one read begins where the one before it ended, up to the log's end.
        ends = dict.fromkeys(logs, 0)
        for path, begin, length in scan:
            same(f"where a read of {words} begins", begin, ends[path])
            ends[path] = begin + length
        same(f"where the reads of {words} end", ends, logs)


# What is there before each of the packings that are broken: files of one that was told as packed.
KEPT = {b"kept": b"told", b"f1": b"old"}


def kept(trial):
    packs(trial, "p", 0, [(name.decode(), content) for name, content in KEPT.items()], None)


def files_after(trial, files):
    """What the container has after the first so many files of a packing that went on behind KEPT."""
    return {**KEPT, **{name.encode(): content for name, content in FILES[:files]}}


def has_a_front(trial, what):
    """The container has what was kept and a front of the files, by what is told and by hand. Returns how long the front is."""
    seen = view(trial, "p")
    units, _ = seen.region(0)
    seen.close()
    front = len(units) - len(KEPT)
    true(f"{what}: a unit of an earlier packing is missing", front >= 0)
    same(f"{what}: the files", as_read_by_hand(trial, "p"), files_after(trial, front))
    return front


@check
def after_a_kill_at_any_change_nothing_of_an_earlier_packing_is_lost(trial):
    kept(trial)
    before = trial.folder / "before"
    shutil.copytree(trial.root, before)
    _, calls = trial.watched(lines(FILES), UNSYNCED, words=("pack", "p", "0"))
    moments = [(kind, number) for _, kind, number in numbered(below(trial, calls)) if kind in CHANGING or kind == "sync"]
    true(f"there are {len(moments)} moments", len(moments) >= 100)
    fronts = set()
    for kind, number in moments:
        shutil.rmtree(trial.root)
        shutil.copytree(before, trial.root)
        what = f"killed before {kind} {number}"
        ended, _ = trial.watched(lines(FILES), f"kill 9 {kind} {number} {trial.root}*", UNSYNCED, words=("pack", "p", "0"))
        same(f"{what}: the end", (ended.status, ended.out), (-signal.SIGKILL, ""))
        after = trial.run("", words=("recover", "p"), **trial.watch([UNSYNCED], "after"))
        same(f"{what}: the status of a recovery", after.status, 0)
        same(f"{what}: the content of a file that was kept", told(trial, "unpack", "p", "kept"), (0, b"told"))
        seen = view(trial, "p")
        units, end = seen.region(0)
        seen.close()
        fronts.add(len(units) - len(KEPT))
        same(f"{what}: the files", seen_names(trial), sorted(files_after(trial, len(units) - len(KEPT))))
    # Entries land by 64, or with the sync.
    same("how many files were found", fronts, {0, 64, len(FILES)})
    packs(trial, "p", 0, "last 6c\n", f"packed 1 end {end + 21}\n")
    same("a packing behind the last kill", as_read_by_hand(trial, "p"), {**files_after(trial, len(FILES)), b"last": b"l"})


def seen_names(trial):
    status, out = told(trial, "names", "p")
    same("the status of names", status, 0)
    return [it.encode() for it in out.decode().split()[1].split(",")]


@check
def after_kills_at_random_times_the_container_is_read_as_by_hand(trial):
    script = lines((f"f{number}", bytes(500)) for number in range(900))
    killed = 0
    for turn in range(trial.kills or TURNS):
        if turn % TURNS == 0:
            shutil.rmtree(trial.root / "p", ignore_errors=True)
        most = written(trial) + trial.random.randrange(450_000)
        killed += killed_when(trial.start(script, words=("pack", "p", str(turn % 3))), lambda: written(trial) > most)
        if (trial.root / "p").is_dir():
            if turn % 2:
                trial.ends(0, "", words=("recover", "p"))
            true("a kill left what is no small file", isinstance(as_read_by_hand(trial, "p"), dict))
    true("no packing was killed", killed)
    trial.note = f"{killed} of {turn + 1} were killed"


def written(trial):
    """How many bytes stand in the container's logs."""
    return sum(path.stat().st_size for path in (trial.root / "p").glob("hostdir.0/log.*"))


@check
def each_failed_call_of_a_packing_is_told_as_a_fault_and_what_was_packed_before_stays(trial):
    kept(trial)
    before = trial.folder / "before"
    shutil.copytree(trial.root, before)
    for words in (("pack", "p", "0"), ("unpack", "p", "kept"), ("names", "p")):
        script = lines(FILES) if words[0] == "pack" else ""
        shutil.rmtree(trial.root)
        shutil.copytree(before, trial.root)
        _, calls = trial.watched(script, UNSYNCED, words=words)
        for call, kind, number in numbered(below(trial, calls)):
            if kind == "write" and 5 < number < 85:
                continue
            shutil.rmtree(trial.root)
            shutil.copytree(before, trial.root)
            what = f"{words} with {kind} {number} failed"
            ended, _ = trial.watched(script, f"fail EIO {kind} {number} {trial.root}*", UNSYNCED, words=words)
            same(f"{what}: the end", (ended.status, ended.out, ended.err.count("\n")), (4, "0 fault\n", 1))
            true(f"{what}: the reason is {ended.err!r}", ended.err.startswith(f"plfs: {trial.root}") and is_reason(ended.err))
            if words[0] == "pack":
                trial.run("", words=("recover", "p"), **trial.watch([UNSYNCED], "after"))
                has_a_front(trial, what)


@check
def a_packing_on_a_full_disk_is_a_fault_and_the_next_one_goes_on(trial):
    kept(trial)
    for error, reason in (("ENOSPC", "No space left on device"), ("EDQUOT", "Disk quota exceeded")):
        ended, calls = trial.watched(lines(FILES), f"fail {error} write 70 {trial.root}/p/*/log.*", words=("pack", "p", "0"))
        same("the end", (ended.status, ended.out), (4, "0 fault\n"))
        true(f"the reason is {ended.err!r}", f": write: {reason}" in ended.err)
        same("the writes of logs", sum(it.kind == "write" and "/log." in it.path for it in calls), 70)
        same("the syncs of logs and indices", [it.path for it in calls if it.kind == "sync" and re.search(r"/(log|index)\.", it.path)], [])
    ended = trial.run(lines(FILES), words=("pack", "p", "1"), limits=[(size_limit, 3000)])
    true(f"with 3000 bytes of room it ended with {ended}", ended.status in (4, -signal.SIGXFSZ))
    trial.ends(0, "", words=("recover", "p"))
    found = as_read_by_hand(trial, "p")
    true("what was packed before is missing", isinstance(found, dict) and found[b"kept"] == b"told")
    packs(trial, "p", 1, [("kept", b"new")], None)
    same("the next packing", told(trial, "unpack", "p", "kept"), (0, b"new"))


@check
def a_failed_sync_of_a_packing_is_never_told_as_packed(trial):
    kept(trial)
    for item in ("log", "index"):
        ended, _ = trial.watched(lines(FILES), f"fail EIO sync 1 {trial.root}/p/*/{item}.*", words=("pack", "p", "0"))
        same(f"the end with the sync of {item} failed", (ended.status, ended.out), (4, "0 fault\n"))
        true(f"the reason is {ended.err!r}", f"/{item}." in ended.err and is_reason(ended.err))
        trial.ends(0, "", words=("recover", "p"))
        same("what was kept", told(trial, "unpack", "p", "kept"), (0, b"told"))


@check
def closed_and_broken_streams_of_small_files(trial):
    packs(trial, "p", 0, "a 6869\n", "", 5, closed=[0])
    trial.is_untouched()
    packs(trial, "p", 0, "a 6869\n", None, 6, closed=[1])
    is_unpacked(trial, "p", {b"a": b"hi"})
    with open("/dev/full", "wb") as full:
        packs(trial, "p", 0, "b 6869\n", None, 6, stdout=full)
        for words in (("unpack", "p", "a"), ("names", "p")):
            trial.ends(6, "", words=words, stdout=full)
    is_unpacked(trial, "p", {b"a": b"hi", b"b": b"hi"})
    for words in (("unpack", "p", "a"), ("names", "p")):
        trial.ends(6, "", words=words, closed=[1])
        # Neither reads its input.
        same(f"{words} without an input", told(trial, *words, closed=[0])[0], 0)
    packs(trial, "p", 0, "c 6869\n", "packed 1 end 57\n", closed=[2])
    ended, _ = trial.watched(lines(FILES), "fail EIO read 1 */script*", words=("pack", "q", "0"))
    same("an input that fails", (ended.status, ended.out), (5, ""))
    true("a container was made", not (trial.root / "q").exists())


@check
def commands_of_small_files_find_a_root_in_use(trial):
    kept(trial)
    held = Held(trial, WORK, "write", f"{trial.root}/f/*/log.*")
    before = listed(trial.root)
    for words in (("pack", "p", "0"), ("unpack", "p", "kept"), ("names", "p")):
        is_in_use(trial, "a 6869\n", words, trial.root)
    same("what lies in ROOT", listed(trial.root), before)
    held.ends()
    # And a packing keeps others out.
    held = Held(trial, lines(FILES), "write", f"{trial.root}/p/*/log.*", words=("pack", "p", "0"))
    is_in_use(trial, "a 6869\n", ("pack", "p", "1"), trial.root)
    same("the end of the first packing", held.ends()[0], 0)
    has_a_front(trial, "beside another packing")


@check
def of_pairs_of_packings_that_start_at_once_each_is_whole_or_says_that_root_is_in_use(trial):
    wanted = {}
    for turn in range(60):
        pair = [trial.start(f"{name}{turn} {turn:02x}\n", words=("pack", "p", "0")) for name in "ab"]
        for name, it in zip("ab", pair):
            out, err = it.communicate(timeout=SECONDS)
            if it.returncode == 0:
                wanted[f"{name}{turn}".encode()] = bytes([turn])
            else:
                same("the end of the other", (it.returncode, out, err.endswith(b": in use by another program\n")), (4, b"0 fault\n", True))
        true("both found ROOT in use", len(wanted) > turn)
    same("the files", as_read_by_hand(trial, "p"), wanted)


@check
def small_files_are_refused_as_open_write_and_ropen_are(trial):
    kept(trial)
    trial.ends(0, "actor a\na stop 3 0\na trunc p 0\n")
    packs(trial, "p", 0, "a 68\n", "0 refused held\n", 1)
    same("a held container is read", told(trial, "unpack", "p", "kept"), (0, b"told"))
    trial.ends(0, "", words=("recover", "p"))
    packs(trial, "p", 0, "a 68\n", "packed 1 end 63\n")
    (trial.root / ".plfs" / "mounts" / str(2**32 - 1)).touch()
    for words in (("pack", "p", "0"), ("unpack", "p", "kept"), ("names", "p")):
        trial.ends(1, "a 68\n", words=words, lines="0 refused mounts-spent\n")


@check
def damage_of_a_container_is_told_by_the_commands_of_small_files(trial):
    kept(trial)
    index = next((trial.root / "p").glob("hostdir.*/index.*"))
    index.write_bytes(bytes(40))
    is_damaged(trial, "kept", f"damaged {index.relative_to(trial.root / 'p')} 0", "restore it from a copy")


@check
def what_helps_against_damage_of_the_view_is_told_at_its_place(trial):
    trial.ends(0, "actor a\na open p\na write 0 hex:01000000000000000200000000000000616869\na write 19 text:A\na close\n")
    is_damaged(trial, "a", "damaged view 19", UNLESS_MORE)


# the manual's limit for `run` and `pack`
PACK_STACK = 160 * 1024


@check
def with_little_stack_no_command_of_small_files_ends_by_a_signal(trial):
    ends_by_itself(trial, lines(FILES), ("pack", "p", "0"), stack=PACK_STACK)
    ends_by_itself(trial, lines(FILES), ("pack", "p", "0"), stack=PACK_STACK)
    ends_by_itself(trial, "", ("unpack", "p", "f1"))
    ends_by_itself(trial, "", ("names", "p"))
    ends_by_itself(trial, "a 6\n", ("pack", "p", "0"), 2, stack=PACK_STACK)
    ends_by_itself(trial, "", ("unpack", "p", "not-there"), 1)


@check
def flattened_and_packed_indices_change_no_small_file(trial):
    kept(trial)
    packs(trial, "p", 2, FILES, None)
    wanted = as_read_by_hand(trial, "p")
    for word in ("flatten", "migrate"):
        trial.ends(0, "", words=(word, "p"))
        same(f"after {word}", as_read_by_hand(trial, "p"), wanted)
    packs(trial, "p", 0, [("f1", b"newest")], None)
    same("a packing behind them", as_read_by_hand(trial, "p"), {**wanted, b"f1": b"newest"})
    trial.ends(0, "", words=("rename", "p", "q"))
    same("a renamed container", told(trial, "unpack", "q", "f1"), (0, b"newest"))


@check
def small_files_over_several_folders_lie_in_the_folder_of_their_container(trial):
    for name in ("one", "two", "three"):
        (trial.root / name).mkdir()
    root = ":".join(str(trial.root / name) for name in ("one", "two", "three"))
    for name in ("f", "g", "h"):
        packs(trial, name, 0, "a 6869\n", "packed 1 end 19\n", root=root)
        same(f"the content in {name}", told(trial, "unpack", name, "a", root=root), (0, b"hi"))
    for name, folder in (("f", "one"), ("g", "two"), ("h", "three")):
        true(f"{name} lies elsewhere", (trial.root / folder / name / "access").exists())


def random_step(trial, names):
    """One change of the container: mostly a packing, which may be killed; else units as writers may put them, a truncate or a recovery."""
    source, region = trial.random, trial.random.choice([0, 0, 1, 2])
    files = [(source.choice(names), source.randbytes(source.choice([0, 1, 7, 300]))) for _ in range(source.randint(0, 6))]
    kind = source.choices(["pack", "killed", "write", "over", "trunc", "recover", "flatten"], [8, 3, 3, 2, 1, 1, 1])[0]
    match kind:
        case "pack":
            return told(trial, "pack", "p", region, script=lines(files)), (region, files)
        case "killed":
            trial.watched(lines(files), f"kill 9 {source.choice(['write', 'sync', 'create'])} {source.randint(1, 8)} {trial.root}/p/*", words=("pack", "p", str(region)))
        case "write":
            # Two writers side by side, of which one has units of one name in one write.
            one = b"".join(unit(name.encode(), content) for name, content in files) + unit(names[0].encode(), b"1") + unit(names[0].encode(), b"2")
            other = unit(names[1].encode(), source.randbytes(9))
            trial.run(f"actor a\nactor b\na open p\nb open p\na write {region * REGION} hex:{one.hex()}\nb write {source.choice([1, 3]) * REGION} hex:{other.hex()}\na close\nb close\n")
        case "over":
            # A unit of the same length as the first one, over it: it may break what follows.
            trial.run(f"actor a\na open p\na write {region * REGION} hex:{unit(names[2].encode(), source.randbytes(source.choice([0, 1, 7]))).hex()}\na close\n")
        case "trunc":
            trial.run("", words=("trunc", "p", str(source.choice([1, 2]) * REGION + source.randrange(60))))
        case _:
            trial.run("", words=(kind, "p"))
    return None


@check
def random_containers_are_read_as_by_hand(trial):
    names = ["a", "b", "c", "long-name.of_a-file"]
    found = []
    for turn in range(25):
        shutil.rmtree(trial.root)
        trial.root.mkdir()
        trial.ends(0, "actor a\na open p\na close\n")
        for _ in range(6):
            before = view(trial, "p")
            packed = random_step(trial, names)
            if packed:
                (status, out), (region, files) = packed
                try:
                    end = before.region(region)[1] + sum(16 + len(name) + len(content) for name, content in files)
                    same("what a packing says", (status, out.decode()), (0, f"packed {len(files)} end {end}\n"))
                except Bad as bad:
                    same("what a packing says", (status, out.decode()), (7, f"0 damaged view {bad.place}\n"))
            before.close()
            found.append(as_read_by_hand(trial, "p"))
            if isinstance(found[-1], int):
                break
    true("containers were all bad, or none was", {dict, int} == set(map(type, found)))
