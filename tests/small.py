"""Small things that users meet: names of ROOT, lines on standard error, limits of the system."""

import resource

from trial import READ, WORK, WORKED, check, listed, same, true

STACK = 128 * 1024
# Two writers and a reader with two workers, on threads.
THREADED = "actor a\nactor b\na open f\nb open f\na write 0 text:a\nb write 1 text:b\na close\nb close\nphase\na ropen f 4\na read 0 9\n"


def stack_limit(most):
    resource.setrlimit(resource.RLIMIT_STACK, (most, most))


def ends_by_itself(trial, script, words, status=0, stack=STACK):
    ended = trial.run(script, words=words, limits=[(stack_limit, stack)])
    same(f"the end of {words} with {stack} bytes of stack ({ended.out!r}, {ended.err!r})", ended.status, status)


@check
def with_little_stack_no_command_ends_by_a_signal(trial):
    ends_by_itself(trial, WORK, ("play",))
    for words in ("ls", "stat f", "map f", "cat f", "flatten f", "recover f", "migrate f", "trunc f 4", "rename f g", "gen 2"):
        ends_by_itself(trial, "", tuple(words.split()))
    ends_by_itself(trial, "a fly\n", ("play",), 2)


@check
def an_input_that_fails_in_its_middle_is_status_5_and_nothing_is_made(trial):
    script = WORK + "#" * 100000 + "\n"
    ended, _ = trial.watched(script, "fail EIO read 2 */script*")
    same("the end", (ended.status, ended.out), (5, ""))
    same("standard error", ended.err, "plfs: standard input: read: Input/output error (os error 5)\n")
    trial.is_untouched()


@check
def an_input_and_an_output_that_move_few_bytes_are_gone_on_with(trial):
    with open(trial.folder / "out", "wb") as out:
        ended, _ = trial.watched(WORK, "short 7 read 1+ */script*", f"short 3 write 1+ {trial.folder}/out", stdout=out)
    same("the end", (ended.status, ended.err), (0, ""))
    lines = (trial.folder / "out").read_text().splitlines()
    same("how many lines were printed, and the last", (len(lines), lines[-1]), (4, "5 closed 1"))
    trial.holds()


@check
def an_output_that_fails_in_its_middle_is_status_6_and_the_work_is_kept(trial):
    with open(trial.folder / "out", "wb") as out:
        ended, _ = trial.watched(WORK, f"short 3 write 1 {trial.folder}/out", f"fail ENOSPC write 2 {trial.folder}/out", stdout=out)
    same("the end", (ended.status, ended.err), (6, "plfs: standard output: write: No space left on device (os error 28)\n"))
    same("the front that was printed", (trial.folder / "out").read_text(), WORKED[:3])
    trial.holds()


@check
def an_output_of_a_file_that_fails_in_its_middle_is_status_6(trial):
    trial.ends(0, WORK)
    with open(trial.folder / "out", "wb") as out:
        ended, _ = trial.watched("", f"fail EIO write 1 {trial.folder}/out", words=("cat", "f"), stdout=out)
    same("the end", (ended.status, ended.err), (6, "plfs: standard output: write: Input/output error (os error 5)\n"))


@check
def a_root_by_a_long_path_is_served(trial):
    root = trial.deep(3900)
    trial.ends(0, WORK, root, lines=WORKED)
    trial.holds(root=root)
