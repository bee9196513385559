"""Standard streams that are closed, full or broken, and what a run says where."""

import os
import pathlib

from trial import READ, WORK, WORKED, Wrong, check, same, true

USAGE = "usage: plfs ROOT "


@check
def closed_input_is_status_5_and_nothing_is_made(trial):
    trial.ends(5, WORK, closed=[0], lines="")
    trial.is_untouched()


@check
def closed_output_is_status_6_and_the_work_is_made_and_kept(trial):
    trial.ends(6, WORK, closed=[1])
    trial.holds()


@check
def closed_standard_error_changes_nothing(trial):
    trial.ends(0, WORK, closed=[2], lines=WORKED)
    trial.holds()


@check
def with_standard_error_closed_a_fault_is_still_told(trial):
    trial.ends(4, WORK, trial.folder / "away", closed=[2], lines="0 fault\n")


@check
def closed_output_and_standard_error_keep_the_work(trial):
    trial.ends(6, WORK, closed=[1, 2])
    trial.holds()


@check
def with_all_three_streams_closed_nothing_is_made(trial):
    trial.ends(5, WORK, closed=[0, 1, 2])
    trial.is_untouched()


@check
def a_full_device_as_output_is_status_6_and_the_work_is_kept(trial):
    with open("/dev/full", "wb") as full:
        trial.ends(6, WORK, stdout=full)
    trial.holds()


@check
def a_closed_pipe_as_output_is_status_6_and_the_work_is_kept(trial):
    reading, writing = os.pipe()
    os.close(reading)
    with open(writing, "wb") as pipe:
        trial.ends(6, WORK, stdout=pipe)
    trial.holds()


@check
def a_folder_as_input_is_status_5_and_nothing_is_made(trial):
    folder = os.open(trial.folder, os.O_RDONLY)
    trial.ends(5, WORK, stdin=folder, lines="")
    os.close(folder)
    trial.is_untouched()


@check
def an_input_that_is_open_for_writing_alone_is_status_5(trial):
    with open(trial.folder / "sink", "wb") as sink:
        trial.ends(5, WORK, stdin=sink, lines="")
    trial.is_untouched()


@check
def a_read_of_the_input_that_fails_once_is_status_5_and_is_not_made_again(trial):
    ended, calls = trial.watched(WORK, f"fail EIO read 1 {trial.folder}/script*")
    same("the end", (ended.status, ended.out), (5, ""))
    same("what reads of the input end with", [it.end for it in calls if it.kind == "read" and "/script" in it.path], ["EIO"])
    trial.is_untouched()


@check
def a_write_of_the_lines_that_fails_once_is_status_6_and_is_not_made_again(trial):
    with open(trial.folder / "lines", "wb") as lines:
        ended, calls = trial.watched(WORK, f"fail EIO write 1 {lines.name}", stdout=lines)
    same("the status", ended.status, 6)
    same("what writes of the lines end with", [it.end for it in calls if it.kind == "write" and it.path == lines.name], ["EIO"])
    trial.holds()


@check
def an_empty_input_is_an_empty_script(trial):
    trial.ends(0, "", lines="")


@check
def a_refused_statement_is_status_1_and_the_rest_is_made(trial):
    script = "actor a\na sync\n" + WORK.partition("\n")[2]
    moved = "".join(f"{int(line[0]) + 1}{line[1:]}\n" for line in WORKED.splitlines())
    trial.ends(1, script, lines="2 refused not-open\n" + moved)
    trial.holds()


@check
def actors_share_a_file_by_written_turns(trial):
    script = (
        "actor a\nactor b 1 2\na open f\nb open f\na write 0 text:AA\nb write 1 text:B\na close\nb close\n"
        "phase\na ropen f 2\na read 0 9\na verify 1 text:A\n"
    )
    trial.ends(
        0,
        script,
        lines="3 open 4294967297\n4 open 4294967298\n5 wrote 0 2 STAMP\n6 wrote 1 1 STAMP\n7 closed 1\n8 closed 1\n"
        "10 reader 2 cut 4294967297:1,4294967298:1 trunc -\n11 read 0 4142\n12 differs 1\n",
    )


@check
def a_file_is_mapped_without_a_script(trial):
    trial.ends(0, WORK)
    trial.ends(1, "", words=["map", "g"], lines="0 refused no-file\n")
    mapped = trial.ends(0, "", words=["map", "f"]).out.split()
    true(f"it printed {mapped}", mapped[:2] == ["0", "map"] and mapped[2].startswith("0+5=") and mapped[2].endswith(".4294967297@0") and len(mapped) == 3)


@check
def a_file_is_written_out_without_a_script(trial):
    trial.ends(0, WORK)
    trial.ends(1, "", words=["cat", "g"], lines="0 refused no-file\n")
    trial.ends(0, "", words=["cat", "f"], lines="hello")


@check
def other_words_print_the_usage_line_and_do_nothing(trial):
    for words in ([], ["fly"], ["play", "twice"], ["-v"]):
        ended = trial.ends(2, WORK, words=words)
        true(f"{words} printed {ended.out!r}", ended.out.startswith(USAGE) and ended.out.count("\n") == 1)
    trial.is_untouched()


@check
def a_fault_of_the_script_is_status_2_with_its_line_and_nothing_is_done(trial):
    trial.ends(2, WORK + "a fly\n", lines="script 6 word\n")
    trial.ends(2, "#" * (2**20 + 1), lines="script 0 long\n")
    trial.is_untouched()


@check
def damage_is_status_7_and_says_where(trial):
    trial.ends(0, WORK)
    index = trial.root / "f" / "hostdir.0" / "index.0.4294967297"
    index.write_bytes(bytes(40))
    ended = trial.ends(7, READ, lines="2 damaged hostdir.0/index.0.4294967297 0\n3 refused not-open\n")
    same("standard error", ended.err, f"plfs: {trial.root}: line 2: damaged hostdir.0/index.0.4294967297 0: restore it from a copy\n")
    ended = trial.ends(7, "", words=["map", "f"], lines="0 damaged hostdir.0/index.0.4294967297 0\n")
    same("standard error", ended.err, f"plfs: {trial.root}/f: damaged hostdir.0/index.0.4294967297 0: restore it from a copy\n")


@check
def each_run_that_failed_says_why_in_one_line_on_standard_error(trial):
    trial.ends(0, WORK)
    ends = [trial.ends(4, WORK, trial.folder / "away"), trial.ends(5, WORK, closed=[0])]
    with open("/dev/full", "wb") as full:
        ends.append(trial.ends(6, WORK, stdout=full))
    pathlib.Path(trial.root, "f", "hostdir.0", "index.0.4294967297").write_bytes(bytes(40))
    ends.append(trial.ends(7, READ))
    for ended in ends:
        lines = ended.err.splitlines()
        if len(lines) != 1 or not lines[0].startswith("plfs: "):
            raise Wrong(f"at status {ended.status} standard error has {ended.err!r}")


@check
def a_run_that_was_refused_says_nothing_on_standard_error(trial):
    same("standard error", trial.ends(1, "actor a\na sync\n").err, "")


@check
def a_generated_checkpoint_is_summed_up(trial):
    summary = "lines 134\nrefused 0\nfaults 0\ndamaged 0\nsame 64\ndiffers 0\nsize 3008512\n"
    for _ in range(2):
        trial.ends(0, "", words=["gen", "2"], lines=summary)
    summary = "lines 4226\nrefused 0\nfaults 0\ndamaged 0\nsame 2048\ndiffers 0\nsize 96272384\n"
    trial.ends(0, "", words=["gen", "64"], lines=summary)
    told = trial.ends(0, "", words=["stat", "gen2"]).out
    true(f"it printed {told!r}", told.startswith("0 stat 3008512 6017024 by 4294967297:1504256,"))


@check
def a_file_is_cut_renamed_recovered_and_listed_without_a_script(trial):
    trial.ends(0, WORK.replace("a close\n", "a write 5 text:lost\n"))
    trial.ends(1, "", words=["trunc", "f", "4"], lines="0 refused busy 0 4294967297\n")
    trial.ends(0, "", words=["recover", "f"], lines="0 recovered 4294967297:1 alive - hold no\n")
    trial.ends(0, "", words=["trunc", "f", "4"], lines="0 truncated STAMP\n")
    trial.ends(0, "", words=["rename", "f", "g"], lines="0 renamed\n")
    trial.ends(0, "", words=["ls"], lines="0 ls g\n")
    trial.ends(0, "", words=["cat", "g"], lines="hell")
