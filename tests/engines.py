"""The engine plfs_serve: what its answers are, wrong frames, streams that are missing, and kills."""

import contextlib
import fcntl
import functools
import importlib.util
import os
import pathlib
import shutil
import signal
import socket
import subprocess
import tempfile
import threading
import time

import engine_model as model
from engine_model import ANSWER, HEAD
from small import stack_limit
from trial import SECONDS, Wrong, check, ignore, listed, same, size_limit, true

FRAMES = 10_000
# So many kills of the engine, and as many of the client, where no other number is asked for.
KILLED = 10
NAMES = [b"a", b"b", b"long-name.of_a-file"]


@functools.cache
def loaded(path):
    spec = importlib.util.spec_from_file_location("plfs_client", path)
    module = importlib.util.module_from_spec(spec)
    spec.loader.exec_module(module)
    return module


def client(trial):
    """The module of the Python client, which is loaded once."""
    return loaded(trial.top / "clients" / "python" / "plfs.py")


def engine(trial):
    """The path of the engine: the built program under the engine's name."""
    place = trial.folder / "plfs_serve"
    if not place.is_symlink():
        place.symlink_to(trial.program)
    return str(place)


def plfs(trial, *words, root=None):
    """What the program prints of a command without a script."""
    ended = subprocess.run([trial.program, str(root or trial.root), *words], stdout=subprocess.PIPE, stderr=subprocess.PIPE, timeout=SECONDS)
    true(f"{words} ended with {ended.returncode} ({ended.stderr!r})", ended.returncode == 0)
    return ended.stdout


@contextlib.contextmanager
def root_in_memory(trial):
    """A ROOT in memory where the system has a folder for that: of answers alone, syncs of a disk only take time."""
    folder = tempfile.mkdtemp(prefix="plfs-outside-", dir="/dev/shm" if os.access("/dev/shm", os.W_OK) else trial.folder)
    kept, trial.root = trial.root, pathlib.Path(folder)
    try:
        yield
    finally:
        trial.root = kept
        shutil.rmtree(folder, ignore_errors=True)


def has_no_dead(trial, name, root=None):
    recovered = plfs(trial, "recover", name, root=root)
    true(f"a writer was left open: {recovered!r}", recovered.startswith(b"0 recovered - "))


# ---- frames


def frame(kind, actor, number=0, place=0, extent=0, payload=b"", length=None):
    return HEAD.pack(kind, actor, number, place, extent, len(payload) if length is None else length) + payload


def answers_in(out):
    found, at = [], 0
    while at + ANSWER.size <= len(out):
        number, status, value, length = ANSWER.unpack_from(out, at)
        at += ANSWER.size
        found.append((number, status, value, out[at : at + length]))
        at += length
    same("what stands behind the answers", out[at:], b"")
    return found


def answered(trial, frames, root=None, words=("0",), **how):
    """The engine on these bytes: its status, and its answers, each with its bytes."""
    how = {"stdout": subprocess.PIPE, "stderr": subprocess.PIPE, **how}
    ended = subprocess.run([engine(trial), str(root or trial.root), *words], input=frames, timeout=6 * SECONDS, **how)
    return ended.returncode, answers_in(ended.stdout or b"")


def random_request(random, lengths=(0, 1, 10, 200)):
    """A request, mostly of few places, so that writes overlap and requests of one file meet. Its bytes are one of these many."""
    kind = random.choices(range(1, 16), [6, 30, 5, 4, 6, 12, 4, 3, 3, 4, 4, 2, 2, 2, 2])[0]
    name, place, extent, payload = random.choice(NAMES), 0, 0, b""
    if kind in (model.OPEN, model.STAT, model.FLATTEN, model.RECOVER):
        payload = name
    elif kind == model.WRITE:
        place = random.randrange(3000) if random.random() < 0.95 else random.choice((2**40 - 50, 2**40, 2**64 - 1, random.randrange(2**41)))
        payload = random.randbytes(random.choice(lengths))
    elif kind == model.OPEN_READ:
        place, payload = random.randrange(1, 17), name
    elif kind == model.READ:
        place, extent = random.choice((random.randrange(3000), 2**40 - 60, random.getrandbits(64))), random.choice((0, 1, 500, 5000))
    elif kind == model.TRUNC:
        place, payload = random.choice((random.randrange(3000), random.randrange(3000), 2**40, 2**40 + 1)), name
    elif kind == model.RENAME:
        payload, extent = name + random.choice(NAMES), len(name)
    return kind, random.randrange(5), place, extent, payload


def random_bytes(random):
    """A request of which something is changed: a number, the name, or what follows."""
    kind, actor, place, extent, payload = random_request(random)
    other = random.choice((1, 17, 255, 256, 1 << 24, 1 << 32, random.getrandbits(64)))
    match random.randrange(6):
        case 0:
            kind = random.choice((0, 16, random.getrandbits(64)))
        case 1:
            actor = random.choice((256, 1 << 32, random.getrandbits(64)))
        case 2:
            place = other
        case 3:
            extent = other
        case 4:
            payload += random.choice((b"\n", b"/", b"\0", b"x", bytes(70)))
        case 5:
            payload = random.choice((b"", b".a", b"-a", b"a/b", random.randbytes(3)))
    return kind, actor, place, extent, payload


@check
def the_frames_of_the_page_are_the_engines(trial):
    """The worked row of the page on the engine, with the stamp that the engine gave in the place of the page's."""
    page = (trial.top / "docs" / "ENGINE.md").read_text()
    rows = [bytes.fromhex(it) for it in page.split("## A worked exchange")[1].split("```")[1::2]]
    same("how many rows the page has", len(rows), 4)
    opened, opened_so, written, written_so = rows
    status, answers = answered(trial, opened + written)
    same("the status", status, 0)
    stamp = ANSWER.unpack(written_so)[2]
    told = [ANSWER.pack(number, status, value if number == 8 else stamp, len(payload)) + payload for number, status, value, payload in answers]
    same("the answers", told, [opened_so, written_so])


@check
def random_frames_are_answered_as_the_model_answers(trial):
    with root_in_memory(trial):
        are_answered_as_the_model_answers(trial)


def are_answered_as_the_model_answers(trial, count=FRAMES, **lengths):
    asked = [random_request(trial.random, **lengths) for _ in range(count)]
    frames = [frame(kind, actor, number, *rest) for number, (kind, actor, *rest) in enumerate(asked)]
    status, answers = answered(trial, b"".join(frames))
    same("the status", status, 0)
    same("the numbers", [it[0] for it in answers], list(range(count)))
    right = model.Model()
    for (kind, *rest), (number, status, value, payload) in zip(asked, answers):
        stamp = value if status == model.MADE and kind in model.STAMPED else 2**62
        same(f"the answer to {(kind, *rest)}, the request {number}", (status, value, payload), right.answer(kind, *rest, stamp))
    for writer in right.writers.values():
        writer.land()
    same("the files", plfs(trial, "ls"), b"0 ls " + b",".join(sorted(right.files)) + b"\n")
    for name, file in right.files.items():
        shown = file.show()
        true(f"the size of {name}", plfs(trial, "stat", name.decode()).startswith(b"0 stat %d " % shown.size))
        if shown.size < 2**24:
            same(f"the bytes of {name}", plfs(trial, "cat", name.decode()), shown.read(0, shown.size))
        has_no_dead(trial, name.decode())


@check
def broken_frames_are_told_as_such_and_change_nothing(trial):
    before = frame(model.OPEN, 3, 7, payload=b"a") + frame(model.WRITE, 3, 8, 1, payload=b"hello") + frame(model.CLOSE, 3, 9)
    same("the status", answered(trial, before)[0], 0)
    stood, frames = listed(trial.root), []
    while len(frames) < FRAMES:
        kind, actor, *rest = random_bytes(trial.random)
        if not model.statement(kind, actor, *rest):
            frames.append(frame(kind, actor, len(frames), *rest))
    status, answers = answered(trial, b"".join(frames))
    same("the status", status, 0)
    same("the numbers", [it[0] for it in answers], list(range(FRAMES)))
    same("how they went", {it[1:] for it in answers}, {(model.NO_REQUEST, 0, b"")})
    left = listed(trial.root)
    left.pop(".plfs/mounts/2")
    same("what lies in ROOT", left, stood)


@check
def a_frame_that_is_cut_or_too_long_ends_the_engine_and_what_came_before_is_kept(trial):
    whole = frame(model.OPEN, 0, 1, payload=b"f") + frame(model.WRITE, 0, 2, 0, payload=b"hello")
    cuts = [frame(model.WRITE, 0, 3, 5, payload=b"world")[:length] for length in (1, 47, 48, 52)]
    for behind in (*cuts, frame(model.WRITE, 0, 3, length=(1 << 24) + 1), frame(99, 999, 3, length=2**64 - 1)):
        status, answers = answered(trial, whole + behind)
        same("the status", status, 5)
        same("the answers", [it[:2] for it in answers], [(1, 0), (2, 0)])
        same("the file", plfs(trial, "cat", "f"), b"hello")
        has_no_dead(trial, "f")


@check
def an_engine_without_a_stream_says_so(trial):
    whole = frame(model.OPEN, 0, 1, payload=b"f") + frame(model.WRITE, 0, 2, 0, payload=b"hello") + frame(model.CLOSE, 0, 3)
    same("an empty input", answered(trial, b""), (0, []))
    without = lambda *numbers: {"preexec_fn": lambda: [os.close(it) for it in numbers]}
    place = trial.folder / "frames"
    place.write_bytes(whole)
    for numbers, status in (((0,), 5), ((1,), 6), ((2,), 0), ((0, 1, 2), 5)):
        with open(place, "rb") as frames:
            ended = subprocess.run([engine(trial), trial.root], stdin=frames, stdout=subprocess.PIPE, stderr=subprocess.PIPE, timeout=SECONDS, **without(*numbers))
        same(f"the status without {numbers}", ended.returncode, status)
    with open(place, "rb") as frames, open("/dev/full", "wb") as full:
        same("the status of a full output", subprocess.run([engine(trial), trial.root], stdin=frames, stdout=full, stderr=subprocess.PIPE, timeout=SECONDS).returncode, 6)
    has_no_dead(trial, "f")
    for words in (("0", "1"), ("x",), ("4294967296",), ("",)):
        same(f"the status of {words}", subprocess.run([engine(trial), trial.root, *words], stdin=subprocess.DEVNULL, stdout=subprocess.PIPE, timeout=SECONDS).returncode, 2)


@check
def a_fault_of_the_store_is_answered_and_the_engine_goes_on(trial):
    """A file may have 100,000 bytes: the second write would pass that."""
    first, second = b"1" * 90_000, b"2" * 90_000
    frames = frame(model.OPEN, 0, 1, payload=b"f") + frame(model.WRITE, 0, 2, 0, payload=first) + frame(model.WRITE, 0, 3, 90_000, payload=second)
    frames += frame(model.WRITE, 0, 4, 90_000, payload=b"3") + frame(model.SYNC, 0, 5) + frame(model.CLOSE, 0, 6)
    status, answers = answered(trial, frames, preexec_fn=lambda: (ignore(signal.SIGXFSZ), size_limit(100_000)))
    same("the status", status, 0)
    same("how it went", [it[1] for it in answers], [0, 0, 4, 0, 0, 0])
    same("what has landed", [it[2] for it in answers[4:]], [2, 2])
    same("the file", plfs(trial, "cat", "f"), first + b"3")


@check
def with_little_stack_the_engine_answers(trial):
    whole = frame(model.OPEN, 0, 1, payload=b"f") + frame(model.WRITE, 0, 2, 0, payload=bytes(1 << 20)) + frame(model.SYNC, 0, 3)
    reading = frame(model.OPEN_READ, 1, 4, 16, payload=b"f") + frame(model.READ, 1, 5, 0, 1 << 20) + frame(model.LIST, 1, 6)
    status, answers = answered(trial, whole + reading, preexec_fn=lambda: stack_limit(160 * 1024))
    same("the status", status, 0)
    same("how it went", [it[1] for it in answers], [0] * 6)


# ---- kills


def writes_until(fs, tell):
    """Writes blocks of 1000 bytes of the file `f`, syncs after each third, and tells how many were told as synced."""
    out = fs.open("f", "wb")
    for k in range(1_000_000):
        out.pwrite(bytes([k % 255 + 1]) * 1000, k * 1000)
        if k % 3 == 2:
            landed = out.sync()
            same("what is told as synced", landed, k + 1)
            tell(landed)


def stands(trial, root, synced):
    got = plfs(trial, "cat", "f", root=root) if (root / "f").is_dir() else b""
    true(f"{synced} writes were told as synced, and {len(got)} bytes are there", len(got) >= 1000 * synced and len(got) % 1000 == 0)
    for k in range(len(got) // 1000):
        same(f"write {k}", got[1000 * k : 1000 * (k + 1)], bytes([k % 255 + 1]) * 1000)


@check
def what_was_told_as_synced_stands_after_kills_of_the_engine(trial):
    plfs_client, most = client(trial), 0
    for moment in range(trial.kills or KILLED):
        root, synced = trial.folder / f"killed{moment}", [0]
        root.mkdir()
        fs = plfs_client.Mount(root, engine=engine(trial))
        ended = []

        def write():
            try:
                writes_until(fs, lambda landed: synced.__setitem__(0, landed))
            except Exception as error:
                ended.append(error)

        writer = threading.Thread(target=write)
        writer.start()
        while moment % 2 and not synced[0] and writer.is_alive():
            time.sleep(0.001)
        time.sleep(trial.random.random() * 0.15)
        fs.engine.send_signal(signal.SIGKILL)
        writer.join()
        true(f"the writer ended with {ended}", isinstance(ended[0], plfs_client.Error) and ended[0].why == plfs_client.Why.GONE)
        fs.engine.wait()
        if (root / "f" / "openhosts").is_dir():
            plfs(trial, "recover", "f", root=root)
        stands(trial, root, synced[0])
        most = max(most, synced[0])
        shutil.rmtree(root)
    true("no client came to a sync", most > 0)
    trial.note = f"{moment + 1} kills, with up to {most} writes told as synced"


def is_free(root):
    """Waits until no program has the folder."""
    folder = os.open(root, os.O_RDONLY)
    begun = time.monotonic()
    while time.monotonic() < begun + SECONDS:
        try:
            fcntl.flock(folder, fcntl.LOCK_EX | fcntl.LOCK_NB)
            break
        except BlockingIOError:
            time.sleep(0.002)
    else:
        raise Wrong("an engine without a client has not ended")
    os.close(folder)


@check
def what_was_told_as_synced_stands_after_kills_of_the_client(trial):
    plfs_client, most = client(trial), 0
    for moment in range(trial.kills or KILLED):
        root = trial.folder / f"killed{moment}"
        root.mkdir()
        ours, theirs = socket.socketpair()
        child = os.fork()
        if not child:
            try:
                os.dup2(os.open("/dev/null", os.O_WRONLY), 2)  # the engine may say there that its output failed
                fs = plfs_client.Mount(root, engine=engine(trial))
                theirs.send(bytes(8))
                writes_until(fs, lambda landed: theirs.send(landed.to_bytes(8, "little")))
            finally:
                os._exit(1)
        theirs.close()
        # It may be killed as it mounts, behind that, or behind a sync.
        if moment % 3:
            ours.recv((8, 16)[moment % 3 - 1], socket.MSG_PEEK | socket.MSG_WAITALL)
        time.sleep(trial.random.random() * 0.15)
        os.kill(child, signal.SIGKILL)
        os.waitpid(child, 0)
        told = b""
        while part := ours.recv(1 << 16):
            told += part
        ours.close()
        is_free(root)
        if (root / "f").is_dir():
            has_no_dead(trial, "f", root)
        synced = int.from_bytes(told[len(told) // 8 * 8 - 8 :][:8], "little") if len(told) >= 8 else 0
        stands(trial, root, synced)
        most = max(most, synced)
        shutil.rmtree(root)
    true("no client came to a sync", most > 0)
    trial.note = f"{moment + 1} kills, with up to {most} writes told as synced"
