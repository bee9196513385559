"""Indices of closed writers that are packed."""

import re

from trial import WORK, check, listed, same, true


def says(trial, words, lines, status=0):
    trial.ends(status, "", words=words, lines=lines)


def packed(trial, name):
    """The packed indices of a file, each with its length."""
    return {path: len(content) for path, content in listed(trial.root / name).items() if "/index2." in path}


@check
def a_checkpoint_that_is_packed_is_told_and_mapped_as_before(trial):
    trial.ends(0, "", words=("gen", "2"))
    before = [trial.ends(0, "", words=(word, "gen2")).out for word in ("map", "stat", "cat")]
    true("there is a packed index already", not packed(trial, "gen2"))
    told = re.fullmatch(r"migrated 2 64 ([0-9]+) left 0\n", trial.ends(0, "", words=("migrate", "gen2")).out)
    true("two writers with 64 entries aren't told as packed", told)
    # A run has stamps at one distance, and these are the clock's: so as many runs as that makes, each of 64 bytes behind a head of 24.
    runs = int(told[1])
    true("there are fewer runs than writers, or more than entries", 2 <= runs <= 64)
    made = packed(trial, "gen2")
    same("the packed indices", sorted(made), ["hostdir.0/index2.0.4294967297", "hostdir.1/index2.1.4294967298"])
    same("their bytes", sum(made.values()), 2 * 24 + 64 * runs)
    says(trial, ("migrate", "gen2"), "migrated 0 0 0 left 0\n")
    after = [trial.ends(0, "", words=(word, "gen2")).out for word in ("map", "stat", "cat")]
    true("what is shown of the file has changed", before == after)


@check
def a_migration_without_its_file_is_refused_and_one_with_a_wrong_index_finds_damage(trial):
    says(trial, ("migrate", "f"), "0 refused no-file\n", 1)
    trial.ends(0, WORK)
    index = next((trial.root / "f").glob("hostdir.*/index.*"))
    content = index.read_bytes()
    index.write_bytes(bytes(40))
    says(trial, ("migrate", "f"), f"0 damaged {index.relative_to(trial.root / 'f')} 0\n", 7)
    index.write_bytes(content)
    says(trial, ("migrate", "f"), "migrated 1 1 1 left 0\n")
    trial.holds()
