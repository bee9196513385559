"""Logs that lack bytes of which their entries tell, as a loss of power or a hand may leave them."""

from trial import WORK, check, same, true

TWO = WORK.replace("a sync\n", "a write 5 text:there\na sync\n")
LOG = "hostdir.0/log.0.4294967297"


def shortened(trial, size, *words):
    """A fresh ROOT whose file `f` has two writes of a closed writer, these commands made of it, and a log of this size, or none."""
    trial.root = trial.folder / f"root.{size}.{''.join(words)}"
    trial.root.mkdir()
    trial.ends(0, TWO)
    for word in words:
        trial.ends(0, "", words=(word, "f"))
    log = trial.root / "f" / LOG
    true("the log has ten bytes", log.read_bytes() == b"hellothere")
    if size is None:
        log.unlink()
    else:
        log.write_bytes(log.read_bytes()[:size])


@check
def entries_beyond_the_end_of_a_log_count_as_not_there_and_are_no_damage(trial):
    for size, content in ((None, b""), (0, b""), (4, b""), (5, b"hello"), (9, b"hello"), (10, b"hellothere")):
        shortened(trial, size)
        count = len(content) // 5
        cut = f"4294967297:{count}" if count else "-"
        lines = f"2 reader {len(content)} cut {cut} trunc -\n3 read 0 {content.hex() or '-'}\n"
        trial.ends(0, "actor a\na ropen f\na read 0 64\n", lines=lines)
        trial.ends(0, "", words=("cat", "f"), lines=content.decode())
        mapped = trial.ends(0, "", words=("map", "f")).out
        same(f"the pieces at {size} bytes", (mapped == "0 map -\n", mapped.count("=")), (count == 0, count))
        # With no writer open the metadata alone are asked.
        trial.ends(0, "", words=("stat", "f"), lines="0 stat 10 10 by 4294967297:10 trunc -\n")


@check
def a_log_that_lacks_what_a_flattened_index_covers_is_damage_at_each_opening(trial):
    for size in (None, 0, 9):
        shortened(trial, size, "flatten")
        line = f"0 damaged {LOG} {size or 0}\n"
        for word in ("map", "cat"):
            trial.ends(7, "", words=(word, "f"), lines=line)


@check
def a_log_that_lacks_what_a_packed_index_covers_is_damage_where_it_is_read(trial):
    for size in (None, 0, 7):
        shortened(trial, size, "migrate")
        mapped = trial.ends(0, "", words=("map", "f")).out
        true(f"the pieces are {mapped!r}", mapped.count("=") == 2)
        script = "actor a\na ropen f\na read 0 64\na read 0 5\n"
        ended = trial.ends(7, script)
        first = f"damaged {LOG} {max(size or 0, 5) if size else 0}"
        same(f"the reads at {size} bytes", [line.partition(" ")[2] for line in ended.out.splitlines()[1:]],
             [first, "read 0 68656c6c6f" if size == 7 else f"damaged {LOG} 0"])
        trial.ends(7, "", words=("cat", "f"), lines="")
