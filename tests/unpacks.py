"""Small files that one file holds: one written out, and all named."""

from trial import check, same

A_WITH_HI = "0100000000000000" + "0200000000000000" + "61" + "6869"
B_WITH_NOTHING = "0100000000000000" + "0000000000000000" + "62"


def written(trial, name, *digits):
    script = "actor a\n" + f"a open {name}\n"
    place = 0
    for each in digits:
        script += f"a write {place} hex:{each}\n"
        place += len(each) // 2
    trial.ends(0, script + "a close\n")
    return place


def says(trial, words, lines, status=0):
    trial.ends(status, "", words=words, lines=lines)


@check
def small_files_are_written_out_and_named(trial):
    same("the end of both units", written(trial, "p", B_WITH_NOTHING, A_WITH_HI), 36)
    same("the content of a", trial.ends(0, "", words=("unpack", "p", "a")).out, "hi")
    same("the content of b", trial.ends(0, "", words=("unpack", "p", "b")).out, "")
    says(trial, ("names", "p"), "names a,b\n")


@check
def of_two_small_files_of_one_name_the_later_write_counts(trial):
    written(trial, "p", A_WITH_HI, "0100000000000000" + "0100000000000000" + "61" + "6a")
    same("the content of a", trial.ends(0, "", words=("unpack", "p", "a")).out, "j")
    says(trial, ("names", "p"), "names a\n")


@check
def a_small_file_that_is_not_there_is_refused(trial):
    for words in (("unpack", "p", "z"), ("names", "p")):
        says(trial, words, "0 refused no-file\n", 1)
    written(trial, "p", A_WITH_HI)
    says(trial, ("unpack", "p", "z"), "0 refused no-file\n", 1)


@check
def bytes_that_are_no_small_file_are_damage_of_the_view(trial):
    written(trial, "p", "41")
    for words in (("unpack", "p", "a"), ("names", "p")):
        says(trial, words, "0 damaged view 0\n", 7)
    written(trial, "q", A_WITH_HI, "41")
    for words in (("unpack", "q", "a"), ("names", "q")):
        says(trial, words, "0 damaged view 19\n", 7)


@check
def an_empty_file_has_no_small_files(trial):
    trial.ends(0, "actor a\na open p\na close\n")
    says(trial, ("names", "p"), "names -\n")
    says(trial, ("unpack", "p", "a"), "0 refused no-file\n", 1)
