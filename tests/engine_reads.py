"""Long requests of the engine plfs_serve: while one is written, a thread reads the next ones."""

import resource
import subprocess
import threading
import time

import engine_model as model
from engines import ANSWER, answered, answers_in, are_answered_as_the_model_answers, engine, frame, has_no_dead, plfs, root_in_memory
from trial import SECONDS, check, connected, reset, same, true

# So many bytes a request has at least for a thread to read on behind it.
LONG = 1 << 15


def long_frames(count, length=LONG):
    """Requests of two actors that open the file `f`, and by turns write so many blocks one behind the other; and the file that they make."""
    opened = [frame(model.OPEN, actor, actor, payload=b"f") for actor in range(2)]
    blocks = [bytes([k % 251 + 1]) * length for k in range(count)]
    frames = [frame(model.WRITE, k % 2, k + 2, k * length, payload=block) for k, block in enumerate(blocks)]
    return b"".join(opened + frames), b"".join(blocks)


@check
def long_requests_are_answered_as_the_model_answers(trial):
    """All at once, so that more wait than the engine has room for. Some are just as long as a thread wants them, or one byte shorter."""
    with root_in_memory(trial):
        are_answered_as_the_model_answers(trial, 600, lengths=(0, 10, LONG - 1, LONG, 47_008, 300_000))


@check
def without_a_thread_long_requests_are_answered(trial):
    frames, wanted = long_frames(40)
    status, answers = answered(trial, frames, preexec_fn=lambda: resource.setrlimit(resource.RLIMIT_NPROC, (0, 0)))
    same("the end", (status, [it[:2] for it in answers]), (0, [(k, 0) for k in range(42)]))
    same("the file", plfs(trial, "cat", "f"), wanted)
    has_no_dead(trial, "f")


@check
def a_long_request_that_is_cut_or_too_long_comes_behind_the_ones_before(trial):
    frames, wanted = long_frames(20)
    cuts = [frame(model.WRITE, 0, 22, payload=bytes(LONG))[:length] for length in (1, 47, 48, 52, LONG)]
    for k, behind in enumerate((*cuts, frame(model.WRITE, 0, 22, length=(1 << 24) + 1))):
        root = trial.folder / f"cut{k}"
        root.mkdir()
        status, answers = answered(trial, frames + behind, root)
        same("the end", (status, [it[:2] for it in answers]), (5, [(k, 0) for k in range(22)]))
        same("the file", plfs(trial, "cat", "f", root=root), wanted)
        has_no_dead(trial, "f", root)


@check
def a_read_that_fails_behind_long_requests_is_told(trial):
    """Each request is two reads: its head, and its bytes."""
    frames, wanted = long_frames(20)
    place = trial.folder / "in"
    place.write_bytes(frames)
    for call, made in ((2 * 12 + 1, 12), (2 * 12 + 2, 12), (1, 0), (3, 1)):
        root = trial.folder / f"failed{call}"
        root.mkdir()
        with open(place, "rb") as file:
            ended = subprocess.run([engine(trial), root], stdin=file, capture_output=True, timeout=SECONDS, **trial.watch([f"fail EIO read {call} */in"]))
        same("the end", (ended.returncode, ended.stderr), (5, b"plfs: standard input: read: Input/output error (os error 5)\n"))
        same("the answers", [it[:2] for it in answers_in(ended.stdout)], [(k, 0) for k in range(made)])
        if made > 2:
            same("the file", plfs(trial, "cat", "f", root=root), wanted[: (made - 2) * LONG])
            has_no_dead(trial, "f", root)


@check
def requests_over_a_network_that_is_reset_behind_a_long_one_are_status_5(trial):
    frames, wanted = long_frames(4)
    sender, receiver = connected()
    with receiver:
        started = subprocess.Popen([engine(trial), trial.root], stdin=receiver, stdout=subprocess.PIPE, stderr=subprocess.PIPE)
    sender.sendall(frames)
    same("the answers", len(started.stdout.read(6 * ANSWER.size)), 6 * ANSWER.size)
    reset(sender)
    out, err = started.communicate(timeout=SECONDS)
    same("the end", (started.returncode, out, err), (5, b"", b"plfs: standard input: read: Connection reset by peer (os error 104)\n"))
    same("the file", plfs(trial, "cat", "f"), wanted)
    has_no_dead(trial, "f")


@check
def an_engine_whose_answers_nobody_takes_ends_while_its_input_is_open(trial):
    """Its client goes on with long requests as long as they are taken, or sends none behind the first ones."""
    frames, _ = long_frames(3)
    for goes_on in (True, False):
        root = trial.folder / f"ended{goes_on}"
        root.mkdir()
        started = subprocess.Popen([engine(trial), root], stdin=subprocess.PIPE, stdout=subprocess.PIPE, stderr=subprocess.PIPE)

        def send():
            try:
                while goes_on:
                    started.stdin.write(frame(model.WRITE, 1, 9, payload=bytes(LONG)) + frame(model.WRITE, 0, 9, payload=bytes(LONG)))
                started.stdin.write(frame(model.WRITE, 1, 9, payload=bytes(LONG)))
                started.stdin.flush()
            except BrokenPipeError:
                pass

        started.stdin.write(frames)
        started.stdin.flush()
        same("the answers", len(started.stdout.read(5 * ANSWER.size)), 5 * ANSWER.size)
        started.stdout.close()
        sender = threading.Thread(target=send)
        begun = time.monotonic()
        sender.start()
        same("the status", started.wait(timeout=SECONDS), 6)
        true("it waited", time.monotonic() < begun + SECONDS / 2)
        sender.join()
        try:
            started.stdin.close()
        except BrokenPipeError:
            pass
        has_no_dead(trial, "f", root)
        started.stderr.close()


def table_of(process):
    """How many descriptors the system's table of this process has room for."""
    with open(f"/proc/{process.pid}/status", encoding="utf8") as status:
        return next(int(line.split()[1]) for line in status if line.startswith("FDSize:"))


@check
def room_for_descriptors_is_made_before_threads_start(trial):
    """As many as the engine may have, up to 1024. With few it serves all the same."""
    for most, least in ((1024, 1024), (600, 1024), (40, 0)):
        root = trial.folder / f"room{most}"
        root.mkdir()
        limit = lambda most=most: resource.setrlimit(resource.RLIMIT_NOFILE, (most, most))
        started = subprocess.Popen([engine(trial), root], stdin=subprocess.PIPE, stdout=subprocess.PIPE, stderr=subprocess.PIPE, preexec_fn=limit)
        started.stdin.write(frame(model.OPEN, 0, 1, payload=b"f"))
        started.stdin.flush()
        answer = started.stdout.read(ANSWER.size)
        room = table_of(started)
        out, err = started.communicate(timeout=SECONDS)
        same("the end", (started.returncode, out, err), (0, b"", b""))
        same("the answer", [found[:2] for found in answers_in(answer)], [(1, 0)])
        true(f"with {most} descriptors the table has room for {room}", room >= least)
