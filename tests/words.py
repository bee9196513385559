"""What is said on standard error of a ROOT with an odd name, of damage, and where a run can't begin."""

import os

from small import THREADED, ends_by_itself
from trial import WORK, check, listed, same, true


@check
def a_name_of_root_with_control_characters_stays_one_line_on_standard_error(trial):
    for name, shown in (("a\nb", "a\\nb"), ("a\tb", "a\\tb"), ("a\x1b[31mb", "a\\u{1b}[31mb")):
        ended = trial.ends(4, WORK, trial.folder / name, lines="0 fault\n")
        same("standard error", ended.err, f"plfs: {trial.folder}/{shown}: list: No such file or directory (os error 2)\n")


@check
def an_empty_root_prints_the_usage_line(trial):
    for words in (("play",), ("ls",)):
        ended = trial.run(WORK, "", words=words, cwd=trial.root)
        same("the end", (ended.status, ended.err), (2, ""))
        true(f"it printed {ended.out!r}", ended.out.startswith("usage: plfs ROOT ") and ended.out.count("\n") == 1)
    trial.is_untouched()


@check
def memory_that_is_refused_while_the_words_are_read_is_status_3(trial):
    for number in range(1, 8):
        ended, _ = trial.watched(WORK, f"fail ENOMEM memory {number} *")
        same(f"the end at allocation {number}", (ended.status, ended.out, ended.err), (3, "", "plfs: memory was refused\n"))
    trial.is_untouched()


@check
def a_damage_is_worded_alike_by_all_commands(trial):
    trial.ends(0, WORK)
    index = next((trial.root / "f").glob("hostdir.*/index.*"))
    index.write_bytes(bytes(40))
    what = f"damaged {index.relative_to(trial.root / 'f')} 0"
    before = listed(trial.root / "f")
    for words in ("map f", "cat f", "flatten f", "migrate f"):
        ended = trial.ends(7, "", words=tuple(words.split()), lines=f"0 {what}\n")
        same(f"standard error of {words}", ended.err, f"plfs: {trial.root}/f: {what}: restore it from a copy\n")
        if words in ("map f", "cat f"):
            same(f"what lies in the container after {words}", listed(trial.root / "f"), before)


@check
def a_path_of_root_that_is_too_long_for_its_items_is_told_before_anything_is_made(trial):
    for length, status, began in ((3937, 0, "2 open "), (3938, 4, "0 fault")):
        root = trial.deep(length)
        ended = trial.run(WORK, root)
        same(f"the end at {length} bytes ({ended.err[-200:]})", (ended.status, ended.out[:7]), (status, began))
    same("standard error", ended.err, f"plfs: {root}: its path is longer than 3937 bytes\n")
    same("what was made", os.listdir(root), [])


@check
def a_folder_that_root_names_twice_is_a_fault(trial):
    for root in (f"{trial.root}:{trial.root}", f"{trial.root}:{trial.root}/."):
        ended = trial.ends(4, WORK, root, lines="0 fault\n")
        true(f"standard error is {ended.err!r}", ended.err.startswith(f"plfs: {trial.root}") and ended.err.endswith(": it is named twice\n"))
    trial.is_untouched()


@check
def with_little_stack_no_thread_ends_by_a_signal(trial):
    # The halves into which actors are parted stand on one another: the most actors want the most.
    ends_by_itself(trial, THREADED, ("run",), stack=160 * 1024)
    ends_by_itself(trial, THREADED.replace("ropen f 4", "ropen f 16"), ("run",), stack=160 * 1024)
    actors = [f"a{number}" for number in range(256)]
    script = [*(f"actor {actor}" for actor in actors), *(f"{actor} open f" for actor in actors), *(f"{actor} close" for actor in actors), ""]
    ends_by_itself(trial, "\n".join(script), ("run",), stack=160 * 1024)
