"""What lines say of random scripts is what the page of crates/headline says, as judge.py reads it."""

import re
import shutil

import judge
from trial import check, same, true

NAMES = ["f", "g", "long-name.of_a-file"]
PLAYS, RUNS = 500, 200

# Two writers and two readers, of whom all is sure, so that each planted line is wrong.
PLANTED = """actor a
actor b 1
a open f
a write 0 text:abcd
a sync
phase
b open f
b write 2 text:xy
a ropen f
a read 0 8
a refresh
a read 0 8
a trunc f 3
phase
a close
b close
phase
a trunc f 3
b ropen f
b read 0 8
b rclose
phase
b ropen f
b read 0 8
b map
b stat f
b flatten f
b ls
b recover f
b rename f g
b stat f
"""

# What is changed of which line, and the field that has to refuse it.
WRONG = {
    "a byte": ("10 read 0 61626364", "10 read 0 61626365", "reader"),
    "a byte behind a truncate": ("24 read 0 61..78", "24 read 0 616279", "reader"),
    "a count below what was synced": (r"9 reader 4 cut (\d+):1", "9 reader 0 cut -", "reader"),
    "a count below that of the former line": (r"11 reader 4 cut (\d+):1", "11 reader 0 cut -", "refreshed"),
    "a count above all that was written": (r"11 reader 4 cut (\d+):1", r"11 reader 4 cut \1:2", "reader"),
    "a size": ("23 reader 3 ", "23 reader 4 ", "reader"),
    "a truncate left out": (r"23 reader 3 (.*) trunc .*", r"23 reader 4 \1 trunc -", "reader"),
    "a truncate that nobody made": (r"23 reader 3 (.*) trunc (\d+):3", rf"23 reader 3 \1 trunc \2:3,{judge.GREATEST_STAMP}:3", "reader"),
    "a number synced": ("5 synced 1", "5 synced 2", "synced"),
    "a number closed": ("16 closed 1", "16 closed 0", "synced"),
    "a place of a write": ("4 wrote 0 4", "4 wrote 1 4", "wrote"),
    "a length of a write": ("4 wrote 0 4", "4 wrote 0 3", "wrote"),
    "a writer": (r"3 open (\d+)", "3 open 7", "opened"),
    "a number": ("25 map", "26 map", "numbered"),
    "a line of another kind": ("28 ls f", "28 renamed", "kinds"),
    "a piece": (r"25 map 0\+2", "25 map 0+1", "reader"),
    "an attribute": (r"26 stat 3 ", "26 stat 4 ", "stat"),
    "a share": (r"26 stat (\d+) 6 by (\d+):4", r"26 stat \1 6 by \2:3", "stat"),
    "stored bytes": ("26 stat 3 6 ", "26 stat 3 7 ", "stat"),
    "a truncate of a stat left out": (r"26 stat (.*) trunc .*", r"26 stat \1 trunc -", "stat"),
    "a truncate of a stat that nobody made": (r"26 stat (.*) trunc (\d+):3", rf"26 stat \1 trunc \2:3,{judge.GREATEST_STAMP}:3", "stat"),
    "a number of pieces": (r"27 flattened (\d+) 2", r"27 flattened \1 3", "flattened"),
    "a name too many": ("28 ls f", "28 ls f,g", "listed"),
    "a name too few": ("28 ls f", "28 ls -", "listed"),
    "a name twice": ("28 ls f", "28 ls f,f", "listed"),
    "a writer alive": ("29 recovered - alive - ", "29 recovered - alive 4294967297 ", "recovered"),
    "a writer taken out with none of its writes": ("29 recovered - alive - ", "29 recovered 4294967297:0 alive - ", "recovered"),
    "a hold": ("hold no", "hold yes", "recovered"),
    "a rename that was none": ("30 renamed", "30 refused exists", "names"),
    "no such file": ("29 recovered .*", "29 refused no-file", "refused"),
    "no such file to tell of": ("26 stat .*", "26 refused no-file", "refused"),
    "held without cause": ("18 truncated .*", "18 refused held", "refused"),
    "an opening held without cause": (r"3 open \d+", "3 refused held", "refused"),
    "a recovery held by nobody": ("29 recovered .*", "29 refused held", "refused"),
    "busy by nobody": ("18 truncated .*", "18 refused busy 0 4294967297", "refused"),
    "busy by one that closed": (r"(?s)(3 open (\d+)\n.*)18 truncated \d+", r"\g<1>18 refused busy 0 \2", "refused"),
    "busy by another": (r"13 refused busy 0 (\d+)", "13 refused busy 1 7", "refused"),
    "no reader": ("24 read .*", "24 refused not-open", "refused"),
    "a sync without a writer": ("5 synced 1", "5 refused not-open", "refused"),
    "a write without a writer": ("8 wrote .*", "8 refused not-open", "refused"),
    "a close without a writer": ("16 closed 1", "16 refused not-open", "refused"),
    "a reader already": ("23 reader .*", "23 refused already-open", "refused"),
    "a writer already": (r"7 open \d+", "7 refused already-open", "refused"),
    "a truncate already": ("18 truncated .*", "18 refused already-open", "refused"),
    "a truncate below what had landed": (r"18 truncated \d+", "18 truncated 1", "truncated"),
    "a write's stamp that no clock gives": (r"4 wrote 0 4 \d+", f"4 wrote 0 4 {2**62 + 1}", "stamped"),
    "a truncate's stamp that no clock gives": (r"18 truncated \d+", f"18 truncated {2**62 + 1}", "truncated"),
    "no stamp left": ("4 wrote .*", "4 refused stamps-spent", "refused"),
    "no stamp left for a truncate": ("18 truncated .*", "18 refused stamps-spent", "refused"),
    "too far within the limit": ("8 wrote .*", "8 refused too-far", "refused"),
    "a stop that none armed": ("24 read .*", "24 stopped", "stopped"),
    "gone without a stop": ("31 refused no-file", "31 gone", "gone"),
    "a fault without a fault": ("31 refused no-file", "31 fault", "fault"),
}


def block(source):
    length = source.choice([0, 1, 3, 10, 40])
    return source.choice([f"fill:{length}:{source.randrange(256)}", f"ramp:{length}:{source.randrange(256)}"])


def statement(source, names, has_renames):
    name, place = source.choice(names), source.randrange(120)
    kind = source.choices(
        ["open", "write", "sync", "close", "ropen", "read", "verify", "map", "refresh", "rclose", "stat", "trunc", "rename", "flatten", "ls", "recover", "stop"],
        [5, 30, 6, 6, 8, 10, 4, 4, 5, 4, 4, 6, 5 if has_renames else 0, 3, 2, 3, 1],
    )[0]
    match kind:
        case "open" | "stat" | "flatten" | "recover":
            return f"{kind} {name}"
        case "write" | "verify":
            return f"{kind} {place} {block(source)}"
        case "ropen":
            return f"{kind} {name} {source.randint(1, 4)}"
        case "read":
            return f"{kind} {place} {source.choice([0, 1, 50, 300])}"
        case "trunc":
            return f"{kind} {name} {place}"
        case "rename":
            return f"{kind} {name} {source.choice([*names, 'new'])}"
        case "stop":
            return f"{kind} {source.randint(1, 6)} {source.randint(0, 60)}"
    return kind


def script(source):
    """A random script of some actors, in some phases, with turns or without."""
    actors = [f"a{number}" for number in range(source.randint(1, 4))]
    names, has_renames, has_turns = NAMES[: source.randint(1, 3)], source.random() < 0.15, source.random() < 0.5
    lines = [f"actor {actor} {source.randrange(40)} {source.choice([1, 2, 5, 64])}" for actor in actors]
    for phase in range(source.randint(1, 3)):
        lines += ["phase"] * (phase > 0)
        if has_turns:
            lines += [f"turn {source.choice(actors)} {source.randint(1, 9)}" for _ in range(source.randint(1, 8))]
        lines += [f"{actor} open {source.choice(names)}" for actor in actors if source.random() < 0.6]
        lines += [f"{actor} ropen {source.choice(names)}" for actor in actors if source.random() < 0.4]
        lines += [f"{source.choice(actors)} {statement(source, names, has_renames)}" for _ in range(source.choice([4, 10, 20]))]
        lines += [f"{actor} close" for actor in actors if source.random() < 0.3]
    return "\n".join(lines) + "\n"


def printed(trial, text, way, root):
    """All that the program prints of a script, with its stamps."""
    started = trial.start(text, root, (way,))
    out, _ = started.communicate(timeout=60)
    true(f"{way} ended with {started.returncode}", started.returncode in (0, 1))
    return out.decode()


def accepted(trial, text, way, root):
    """Has the program make the script, and the judge read what it says. Gives the lines, and the rooms before and after."""
    before = judge.tree_of(root)
    lines = printed(trial, text, way, root)
    after = judge.tree_of(root)
    found = judge.judged(text, lines, before, after, way)
    same(f"what the judge finds of {text!r} with the lines {lines!r}", found, [])
    return lines, before, after


def many(trial, way, count):
    """Random scripts, up to three of them one after the other on one folder."""
    for number in range(count):
        if number % 3 == 0:
            shutil.rmtree(trial.root)
            trial.root.mkdir()
        accepted(trial, script(trial.random), way, trial.root)


@check
def the_judge_accepts_the_examples(trial):
    for file in sorted((trial.top / "examples").glob("*.plfs")):
        for way in ("play", "run"):
            root = trial.folder / f"{file.stem}.{way}"
            root.mkdir()
            accepted(trial, file.read_text(), way, root)


@check
def the_judge_accepts_random_plays(trial):
    many(trial, "play", PLAYS)


@check
def the_judge_accepts_random_runs_on_threads(trial):
    many(trial, "run", RUNS)


@check
def the_judge_refuses_planted_lines(trial):
    """Each of them by the field that speaks of it."""
    lines, before, after = accepted(trial, PLANTED, "play", trial.root)
    for what, (old, new, field) in WRONG.items():
        planted, count = re.subn(old, new, lines, count=1)
        true(f"no line is changed by {what!r} in {lines!r}", count == 1 and planted != lines)
        found = judge.judged(PLANTED, planted, before, after, "play")
        true(f"the judge finds {found} in the lines with {what}", any(re.match(rf"{field}\b", one) for one in found))


@check
def the_judge_knows_where_no_stamp_is_left(trial):
    """After a truncate of the last stamp of all. Where it has another stamp the judge refuses the same lines."""
    accepted(trial, "actor a\na open f\na write 0 text:ab\na close\na trunc f 2\n", "play", trial.root)
    (truncate,) = (trial.root / "f/truncs").iterdir()
    truncate.rename(truncate.with_name(f"{judge.GREATEST_STAMP}.2"))
    text = "actor a\na trunc f 1\na open f\na write 0 text:c\na close\n"
    lines, before, after = accepted(trial, text, "play", trial.root)
    same("lines with this refusal", re.findall(r"(\d+) refused stamps-spent", lines), ["2", "4"])
    other = {f"{judge.GREATEST_STAMP}.2": "7.2"}
    trees = [[room._replace(files={(*at[:-1], other.get(at[-1], at[-1])): data for at, data in room.files.items()}) for room in tree] for tree in (before, after)]
    found = judge.judged(text, lines, *trees, "play")
    true(f"the judge finds {found} with a stamp left", sum(bool(re.match(r"refused, line (2|4): a stamp is left", one)) for one in found) == 2)


@check
def the_judge_refuses_a_tree_that_lost_something(trial):
    lines, before, after = accepted(trial, PLANTED, "play", trial.root)
    for what, path in {"left": r"hostdir\.0/index\..*", "closed": r"metadata/.*\.0\.\d+", "truncated": r"truncs/.*", "flattened": r"flats/.*"}.items():
        lost = [room._replace(files={at: data for at, data in room.files.items() if not re.fullmatch(path, "/".join(at))}) for room in after]
        found = judge.judged(PLANTED, lines, before, lost, "play")
        true(f"the judge finds {found} in a tree without {path}", any(re.match(rf"{what}\b", one) for one in found))


@check
def the_judge_refuses_a_tree_with_another_content(trial):
    """A writer's log that lost its bytes, one whose last write is gone from its index, metadata that tell another end or stamp, and an index under another host."""
    lines, before, after = accepted(trial, PLANTED, "play", trial.root)
    changes = {
        "left": [("hostdir.0/log.", lambda at, data: (at, b"")), ("hostdir.0/index.", lambda at, data: (at, data[:-40]))],
        "closed": [("metadata/", lambda at, data: ((at[0], f"9{at[1]}"), data)), ("metadata/", lambda at, data: ((at[0], re.sub(r"\.\d+(\.\d+\.\d+)$", r".1\1", at[1])), data))],
        "indices": [("hostdir.0/index.", lambda at, data: ((at[0], at[1].replace("index.0", "index.32")), data))],
    }
    for what, wrong in changes.items():
        for path, change in wrong:
            other = [room._replace(files=dict(change(at, data) if "/".join(at).startswith(path) else (at, data) for at, data in room.files.items())) for room in after]
            found = judge.judged(PLANTED, lines, before, other, "play")
            true(f"the judge finds {found} in a tree with another {path}", any(re.match(rf"{what}\b", one) for one in found))


@check
def the_judge_refuses_a_closed_writer_that_is_open(trial):
    lines, before, after = accepted(trial, PLANTED, "play", trial.root)
    writer = re.search(r"(?m)^3 open (\d+)$", lines)[1]
    other = [room._replace(files={**room.files, ("openhosts", f"0.{writer}"): b""}) if room.name != judge.MARKS else room for room in after]
    found = judge.judged(PLANTED, lines, before, other, "play")
    true(f"the judge finds {found} where a closed writer has its entry still", any(re.match(r"closed\b", one) for one in found))


@check
def the_judge_refuses_an_entry_of_a_writer_that_nobody_opened(trial):
    lines, before, after = accepted(trial, PLANTED, "play", trial.root)
    other = [room._replace(files={**room.files, ("openhosts", "0.77"): b""}) if room.name != judge.MARKS else room for room in after]
    found = judge.judged(PLANTED, lines, before, other, "play")
    true(f"the judge finds {found} where somebody unknown has an entry", any(re.match(r"entries\b", one) for one in found))


@check
def the_page_of_what_lines_say_is_short(trial):
    """What closure.py finds in the repository, which this check doesn't see."""
    same("what the page rests on", (trial.top / "closure.faults").read_text(), "")
