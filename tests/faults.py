"""Calls that the system fails or makes in part, and what is told of them.

Each call below ROOT is failed in turn, by the library between the program and its calls. So a body at the system's edge
that tells a failed call as made, or makes it again, is found out here."""

import re
import shutil

from trial import READ, WORK, WORKED, check, listed, same, true

# Syncs are feigned where so many runs are made that the disk would be waited for.
UNSYNCED = "feign 0 sync 1+ *"

# One actor writes, closes and reads back.
BACK = WORK + "a ropen f\na read 0 5\n"
# A writer that leaves without closing, with one write that it synced, one that it didn't, and half an entry.
LEFT = WORK.replace("a close\n", "a write 5 text:lost\n")


def index_of(trial):
    return next((trial.root / "f").glob("hostdir.*/index.*"))


def empty(trial):
    """Nothing was played yet."""


def closed(trial):
    trial.ends(0, WORK)


def torn(trial):
    trial.ends(0, LEFT)
    index = index_of(trial)
    index.write_bytes(index.read_bytes() + b"torn")


# What was played before, the script, the words, and what may be read back of `f` or `g` afterwards.
WORKS = [
    (empty, BACK, ("play",), {None, b"", b"hello"}),
    (closed, "", ("stat", "f"), {b"hello"}),
    (closed, "", ("map", "f"), {b"hello"}),
    (torn, "", ("flatten", "f"), {b"hello"}),
    (closed, "", ("migrate", "f"), {b"hello"}),
    (torn, "", ("recover", "f"), {b"hello"}),
    (closed, "", ("trunc", "f", "4"), {b"hello", b"hell"}),
    (closed, "", ("rename", "f", "g"), {b"hello"}),
    (closed, "", ("ls",), {b"hello"}),
]


def below(trial, calls):
    """The calls below ROOT that a test can fail: a failed close closes all the same, and without locks ROOT is served."""
    return [it for it in calls if it.kind not in ("close", "lock") and it.path.startswith(str(trial.root))]


def numbered(calls):
    """Each call with its kind and its number among those of its kind, from 1."""
    seen = {}
    for it in calls:
        seen[it.kind] = seen.get(it.kind, 0) + 1
        yield it, it.kind, seen[it.kind]


def read_back(trial):
    """What another run reads of `f` or `g`, whichever there is, or None where there is neither."""
    ended = trial.run("actor a\nactor b\na ropen f\na read 0 64\nb ropen g\nb read 0 64\n", **trial.watch([UNSYNCED], "back"))
    same(f"the status of a later run ({ended.out!r}, {ended.err!r})", ended.status, 1)
    found = [line.split()[-1] for line in ended.out.splitlines() if " read " in line]
    true(f"both names are there: {ended.out!r}", len(found) < 2)
    return bytes.fromhex(found[0].replace("-", "")) if found else None


def files_of(folder):
    """What lies below a folder, without the marks of runs."""
    return {path: content for path, content in listed(folder).items() if not path.startswith(".plfs/mounts/")}


def is_reason(said):
    """Whether this is said of a call that failed, or of a sync that is refused since one failed, whose reason stays."""
    return ": Input/output error" in said


def each_call_is_failed(trial, before, script, words, contents):
    """Plays the work as often as it makes calls below ROOT, each time with one of them failed: that must be told."""
    before(trial)
    kept, was = trial.folder / "kept", files_of(trial.root)
    shutil.copytree(trial.root, kept)
    ended, calls = trial.watched(script, UNSYNCED, words=words)
    same(f"the status of {words}", ended.status, 0)
    calls = below(trial, calls)
    true(f"{words} makes {len(calls)} calls", len(calls) > 8)
    for call, kind, number in numbered(calls):
        if before is empty or files_of(trial.root) != was:
            shutil.rmtree(trial.root)
            shutil.copytree(kept, trial.root)
        ended, made = trial.watched(script, f"fail EIO {kind} {number} {trial.root}*", UNSYNCED, words=words)
        what = f"{words} with {kind} {number} of {call.path.removeprefix(str(trial.root))} failed"
        same(f"{what}: the end ({ended.out!r})", (ended.status, ended.err.count("\n")), (4, 1))
        true(f"{what}: no fault is told: {ended.out!r}", re.search(r"^[0-9]+ fault$", ended.out, re.M))
        true(f"{what}: the reason is {ended.err!r}", ended.err.startswith(f"plfs: {trial.root}") and is_reason(ended.err))
        same(f"{what}: how often it failed", sum(it.end == "EIO" for it in made), 1)
        if files_of(trial.root) == was:
            continue
        content = read_back(trial)
        true(f"{what}: {content!r} is read back", content in contents and (content == b"hello" or " synced 1\n" not in ended.out))


@check
def each_failed_call_of_a_play_is_told_as_a_fault_with_its_reason(trial):
    each_call_is_failed(trial, *WORKS[0])


@check
def each_failed_call_of_a_command_is_told_as_a_fault_with_its_reason(trial):
    for number, work in enumerate(WORKS[1:]):
        trial.folder = trial.folder / str(number)
        trial.root = trial.folder / "root"
        trial.root.mkdir(parents=True)
        each_call_is_failed(trial, *work)
        trial.folder = trial.folder.parent


@check
def a_failed_read_while_a_file_is_written_out_is_status_4_and_says_why(trial):
    trial.ends(0, WORK)
    ended, _ = trial.watched("", f"fail EIO read 2 {trial.root}*", words=("cat", "f"))
    same("the end", (ended.status, ended.out), (4, ""))
    true(f"the reason is {ended.err!r}", re.search(r"/f/hostdir\.0/log\.0\.\d+: read: Input/output error", ended.err))


@check
def calls_that_move_few_bytes_are_gone_on_with(trial):
    for before, script, words, _ in [*WORKS[:6], (closed, "", ("cat", "f"), ())]:
        ends = []
        for rules in ([], [f"short 3 write 1+ {trial.root}*", f"short 3 read 1+ {trial.root}*"]):
            shutil.rmtree(trial.root)
            trial.root.mkdir()
            before(trial)
            ended, calls = trial.watched(script, *rules, words=words)
            same(f"the status of {words}", ended.status, 0)
            sizes = {path: len(content or b"") for path, content in listed(trial.root).items() if "/5.5." not in path}
            ends.append((ended.out, sizes, read_back(trial)))
        same(f"{words} with short calls", ends[1], ends[0])
        if rules and words == ("play",):
            moved = [int(it.end) for it in calls if it.kind == "write" and "/log." in it.path]
            same("the parts of a write", moved, [3, 2])


@check
def a_failed_write_is_told_and_is_not_made_again(trial):
    for error, reason in (("EIO", "Input/output error"), ("ENOSPC", "No space left on device"), ("EDQUOT", "Disk quota exceeded")):
        ended, calls = trial.watched(WORK.replace("open f", f"open {error}"), f"fail {error} write 1 */log.*")
        same("the lines", ended.out.splitlines()[1:], ["3 fault", "4 synced 0", "5 closed 0"])
        true(f"the reason is {ended.err!r}", f": write: {reason}" in ended.err)
        same("the calls that write", [it.end for it in calls if it.kind == "write" and "/log." in it.path], [error])


@check
def a_write_that_failed_behind_its_first_bytes_leaves_nothing_in_the_next_one(trial):
    script = WORK.replace("a sync\n", "a write 0 text:again\na sync\n")
    ended, _ = trial.watched(script, "short 3 write 1 */log.*", "fail EIO write 2 */log.*")
    same("the lines", ended.out.splitlines()[1:], ["3 fault", "4 wrote 0 5 STAMP", "5 synced 1", "6 closed 1"])
    trial.holds(b"again")


@check
def a_write_of_no_byte_is_a_fault(trial):
    ended, _ = trial.watched(WORK, "feign 0 write 1 */log.*")
    same("the lines", ended.out.splitlines()[1:], ["3 fault", "4 synced 0", "5 closed 0"])


@check
def a_call_that_a_signal_interrupts_is_made_again(trial):
    ended, calls = trial.watched(BACK, *(f"fail EINTR {kind} 1 {trial.root}/f/*" for kind in ("write", "read", "sync")))
    same("the end", (ended.status, ended.out.splitlines()[:4]), (0, WORKED.splitlines()))
    same("the calls that were interrupted", sum(it.end == "EINTR" for it in calls), 3)
    trial.holds()


# The kinds of calls that the library doesn't make again where a signal interrupts them, each with a path on which the
# work below calls it: first those that this program makes again.
ASKED = [("look", "*/f/hostdir.0"), ("list", "*/f/truncs"), ("open", "*/f/truncs/")]
CHANGED = [("mkdir", "*/f/hostdir.0"), ("rename", "*/f"), ("remove", "*/f/openhosts/*"), ("rmdir", "*/f/openhosts")]
NAMED = BACK + "a rclose\na trunc f 3\na rename f g\n"
# How often a look or a listing is made.
TRIES = 16


def interrupted(trial, kind, path, when):
    """Plays in a new folder where these calls are interrupted, and says how it ended and how often that was."""
    trial.root = trial.folder / f"root.{kind}"
    trial.root.mkdir()
    ended, calls = trial.watched(NAMED, f"fail EINTR {kind} {when} {path}", UNSYNCED)
    return ended, sum(it.end == "EINTR" for it in calls)


@check
def a_look_and_a_listing_that_a_signal_interrupts_are_made_again(trial):
    for kind, path in ASKED:
        ended, times = interrupted(trial, kind, path, 1)
        same(f"a run in which {kind} of {path} was interrupted", (ended.status, ended.err, times), (0, "", 1))


@check
def a_look_and_a_listing_that_signals_interrupt_each_time_are_faults(trial):
    for kind, path in ASKED:
        ended, times = interrupted(trial, kind, path, "1+")
        what = f"a run in which each {kind} of {path} was interrupted"
        same(f"{what}: the status and how often", (ended.status, times % TRIES, times > 0), (4, 0, True))
        true(f"{what}: it says {ended.out!r}, {ended.err!r}", " fault\n" in ended.out and ended.err.endswith(": Interrupted system call (os error 4)\n"))


@check
def a_change_of_names_that_a_signal_interrupts_is_a_fault(trial):
    for kind, path in CHANGED:
        ended, times = interrupted(trial, kind, path, 1)
        what = f"a run in which {kind} of {path} was interrupted"
        same(f"{what}: the status and how often", (ended.status, times), (4, 1))
        true(f"{what}: it says {ended.out!r}, {ended.err!r}", " fault\n" in ended.out and ended.err.endswith(": Interrupted system call (os error 4)\n"))


@check
def an_opening_a_making_and_a_cut_of_a_file_that_a_signal_interrupts_are_made_again(trial):
    torn(trial)
    for script, words, rules in (("", ("recover", "f"), ["cut 1 */index.*", "open 1 */index.*"]), (BACK, ("play",), ["create 1 */log.*"])):
        ended, calls = trial.watched(script, *(f"fail EINTR {rule}" for rule in rules), words=words)
        same("the end", (ended.status, ended.err, sum(it.end == "EINTR" for it in calls)), (0, "", len(rules)))


# How a folder's listing can end before its last name: as it is opened, at its first part, and behind it.
@check
def a_listing_that_fails_at_any_place_is_a_fault(trial):
    trial.ends(0, WORK)
    lines = "2 fault\n3 refused not-open\n"
    for folder in ("f", "f/flats", "f/hostdir.0", "f/truncs"):
        for rule in ("open 1", "list 1", "list 2"):
            place = f"{trial.root}/{folder}"
            ended, _ = trial.watched(READ, f"fail EIO {rule} {place}{'/' * (rule[0] == 'o')}")
            same(f"{rule} of {folder}", (ended.status, ended.out), (4, lines))
            true(f"the reason is {ended.err!r}", ended.err.startswith(f"plfs: {place}: list: Input/output error"))
    for folder in ("", "/.plfs/mounts"):
        for rule in ("list 1", "list 2"):
            ended, _ = trial.watched(READ, f"fail EIO {rule} {trial.root}{folder}")
            same(f"{rule} of ROOT{folder}", (ended.status, ended.out), (4, "0 fault\n"))
    trial.holds()


@check
def a_failed_rename_is_a_fault_and_the_file_keeps_its_name(trial):
    trial.ends(0, WORK)
    ended, _ = trial.watched("", f"fail EIO rename 1 {trial.root}/f", words=("rename", "f", "g"))
    same("the end", (ended.status, ended.out), (4, "0 fault\n"))
    trial.ends(0, "", words=("ls",), lines="0 ls f\n")
    trial.ends(1, "", words=("cat", "g"), lines="0 refused no-file\n")


# What is failed to be synced, of what was played before, and by which words: the one line that is told.
SYNCS = [
    (empty, WORK, ("play",), "log", "4 fault"),
    (empty, WORK, ("play",), "index", "4 fault"),
    (empty, WORK.replace("a sync\n", ""), ("play",), "log", "4 fault"),
    (empty, WORK.replace("a sync\n", ""), ("play",), "index", "4 fault"),
    (torn, "", ("recover", "f"), "log", "0 fault"),
    (torn, "", ("recover", "f"), "index", "0 fault"),
    (torn, "", ("flatten", "f"), "log", "0 fault"),
    (torn, "", ("flatten", "f"), "index", "0 fault"),
    (torn, "", ("flatten", "f"), "tmp", "0 fault"),
    (closed, "", ("migrate", "f"), "tmp2", "0 fault"),
]


@check
def a_failed_sync_is_a_fault_of_the_statement_that_asked_for_it(trial):
    for number, (before, script, words, item, line) in enumerate(SYNCS):
        trial.root = trial.folder / f"root{number}"
        trial.root.mkdir()
        before(trial)
        ended, calls = trial.watched(script, f"fail EIO sync 1 {trial.root}/f/*/{item}.*", words=words)
        what = f"{words}, the sync of {item} failed"
        true(f"{what}: it was not asked for", any(it.end == "EIO" for it in calls))
        true(f"{what}: the lines are {ended.out!r}", line in ended.out.splitlines() and ended.status == 4)
        true(f"{what}: the reason is {ended.err!r}", f"/{item}." in ended.err and is_reason(ended.err))
        is_kept = before is not empty or re.search(" (synced|closed) 1$", ended.out, re.M)
        true(f"{what}: what is read back", read_back(trial) in ({b"hello"} if is_kept else {b"hello", b""}))


@check
def a_link_that_comes_between_a_look_and_an_opening_is_not_followed(trial):
    victim = trial.folder / "victim"
    for item in ("log", "index"):
        trial.root = trial.folder / f"root.{item}"
        trial.root.mkdir()
        trial.ends(0, WORK)
        victim.write_text("not yours")
        (trial.folder / "link").symlink_to(victim)
        ended, _ = trial.watched(READ, f"move {trial.folder}/link open 1 {trial.root}/f/hostdir.0/{item}.*")
        same("the end", (ended.status, ended.out), (4, "2 fault\n3 refused not-open\n"))
        true(f"the reason is {ended.err!r}", ended.err.endswith(": open: it was replaced meanwhile\n"))
        same("what the link leads to", victim.read_text(), "not yours")


@check
def want_of_memory_in_a_listing_is_status_3_and_of_descriptors_a_fault(trial):
    trial.ends(0, WORK)
    for error, status in (("ENOMEM", 3), ("EMFILE", 4), ("ENFILE", 4)):
        ended, _ = trial.watched(READ, f"fail {error} open 1 {trial.root}/f/hostdir.0/")
        same(f"the status at {error} ({ended.err!r})", ended.status, status)
    trial.holds()
