"""Scripts that are run on threads."""

import signal
import time

from trial import SECONDS, WORK, WORKED, check, process_limit, same, true

ACTORS = [f"w{number}" for number in range(16)]


@check
def one_actor_on_a_thread_has_the_lines_of_a_play(trial):
    trial.ends(0, WORK, words=("run",), lines=WORKED)
    trial.holds()


@check
def what_writers_on_threads_wrote_is_read_in_the_next_phase(trial):
    declared = "".join(f"actor {actor}\n" for actor in [*ACTORS, "r"])
    written = "".join(f"{actor} open f\n{actor} write {place} text:{place:x}\n{actor} close\n" for place, actor in enumerate(ACTORS))
    ended = trial.ends(0, f"{declared}{written}phase\nr ropen f\nr read 0 64\n", words=("run",))
    lines = ended.out.splitlines()
    numbers = [int(line.split()[0]) for line in lines]
    same("the lines' numbers", numbers, [*range(18, 66), 67, 68])
    same("what is read", lines[-1], f"68 read 0 {b'0123456789abcdef'.hex()}")
    trial.holds(b"0123456789abcdef")


@check
def other_words_behind_run_print_the_usage_line(trial):
    ended = trial.ends(2, WORK, words=("run", "play"))
    same("the usage line", ended.out[:17], "usage: plfs ROOT ")
    trial.is_untouched()


def writing(count):
    """A script of as many writers as there are actors, each of which writes its own blocks of 10 bytes of `f`."""
    lines = [f"actor {actor}" for actor in ACTORS] + [f"{actor} open f" for actor in ACTORS]
    lines += [f"{actor} write {10 * (16 * number + place)} fill:10:{65 + place}" for number in range(count) for place, actor in enumerate(ACTORS)]
    return "\n".join([*lines, *(f"{actor} close" for actor in ACTORS), ""])


def written(count):
    return b"".join(bytes([65 + place]) * 10 for place in range(16)) * count


@check
def where_no_thread_can_be_started_a_run_has_the_same_lines(trial):
    trial.ends(0, writing(4), words=("run",), limits=[(process_limit, 1)])
    ended = trial.ends(0, "actor r\nr ropen f\nr read 0 1024\n")
    same("what is read back", ended.out.splitlines()[-1], f"3 read 0 {written(4).hex()}")


def overlapping(name):
    """A script of two writers that overlap and a reader with two workers: two calls in each phase, of which either may come first."""
    phases = (
        (f"w1 open {name}", f"w2 open {name}"),
        ("w1 write 0 text:AAAA", "w2 write 1 text:BB"),
        ("w1 close", "w2 close"),
        (f"w1 ropen {name} 2", "w1 read 0 4", "w1 map"),
    )
    return "actor w1\nactor w2\n" + "".join("phase\n" + "".join(f"{line}\n" for line in phase) for phase in phases)


@check
def a_reader_with_two_workers_reads_what_the_printed_stamps_and_writers_say(trial):
    for turn in range(8):
        out, err = trial.start(overlapping(f"f{turn}"), words=("run",)).communicate(timeout=SECONDS)
        same("standard error", err, b"")
        told = [line.split()[1:] for line in out.decode().splitlines()]
        first, second = ((int(wrote[3]), int(opened[1])) for opened, wrote in zip(told[:2], told[2:4]))
        ids = sorted(writer for _, writer in (first, second))
        same("the line of the reader", told[6], f"reader 4 cut {ids[0]}:1,{ids[1]}:1 trunc -".split())
        (stamp, writer), (other, beside) = first, second
        over = [f"0+1={stamp}.{writer}@0", f"1+2={other}.{beside}@0", f"3+1={stamp}.{writer}@3"]
        is_over = second > first
        same("what is read", told[7], ["read", "0", "41424241" if is_over else "41414141"])
        same("what is mapped", told[8], ["map", *(over if is_over else [f"0+4={stamp}.{writer}@0"])])


@check
def a_file_is_opened_alike_by_one_worker_and_by_many(trial):
    trial.ends(0, "", words=("gen", "2"))
    opened = {(word, workers): trial.ends(0, f"actor r\nr ropen gen2 {workers}\nr map\n", words=(word,)).out
              for word in ("play", "run") for workers in (1, 3, 16)}
    lines = opened["play", 1].splitlines()
    same("the reader's line", lines[0], "2 reader 3008512 cut 4294967297:32,4294967298:32 trunc -")
    same("how many pieces are listed", len(lines[1].split()), 2 + 64)
    same("the openings that have other lines", [it for it, out in opened.items() if out != opened["play", 1]], [])


@check
def who_is_stopped_on_a_thread_stops_alone(trial):
    stopped = "actor a\nactor b\na open f\nb open f\nphase\na stop 1 2\na write 0 text:lost\nb write 0 text:hello\na close\nb close\n"
    ended = trial.ends(0, stopped, words=("run",))
    lines = [line.split(maxsplit=1)[1] for line in ended.out.splitlines()[2:]]
    same("the lines", lines, ["armed", "stopped", "wrote 0 5 STAMP", "gone", "closed 1"])
    trial.holds()


@check
def an_output_that_fails_ends_a_run_with_status_6(trial):
    ended = trial.ends(6, WORK, words=("run",), closed=(1,))
    same("standard error", ended.err, "plfs: standard output: write: it is closed\n")
    trial.holds()


@check
def after_a_kill_of_a_run_on_threads_its_files_are_recovered(trial):
    started = trial.start(writing(100), words=("run",))
    end = time.monotonic() + SECONDS
    folder = trial.root / "f" / "hostdir.0"
    while started.poll() is None and len(list(folder.glob("log.*"))) < 16:
        true("a run had not ended in time", time.monotonic() < end)
    started.send_signal(signal.SIGKILL)
    started.communicate()
    recovered = trial.ends(0, "", words=("recover", "f")).out
    true(f"writers are alive: {recovered}", " alive - " in recovered)
    content = written(100)
    ended = trial.ends(0, f"actor r\nr ropen f\nr read 0 {len(content)}\n")
    shown = ended.out.split()[-1]
    found = b"" if shown == "-" else bytes.fromhex(shown)
    true("other bytes are read back", all(byte in (0, content[place]) for place, byte in enumerate(found)))
