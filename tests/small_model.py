#!/usr/bin/env python3
"""Random work on containers of small files, judged by a model that knows nothing of the program.

    tests/small_model.py [--cases N] [--seed N] [--folder FOLDER] [--program FILE]

It makes N cases, 1000 where nothing is said, each in a fresh folder below FOLDER (the system's temporary one). A case
packs files into regions, has writers lay units, parts of units and other bytes anywhere, truncates, renames, flattens,
migrates and recovers. Runs are killed, calls of the system fail or are made in part, memory is refused, and the clock
stands where the case wants it. Items of the container are damaged and mended again.

The model reads the container from the disk alone: the entries of all index droppings, the logs and the names of the
truncates. It makes the file byte by byte, in the order of the changes, and never asks the program for pieces. By that it
judges each answer of `pack`, `unpack` and `names` by its status and all its bytes, and what they left on the disk:

- `pack` tells the first fault of its input, and then leaves ROOT alone;
- its writer has one entry for each file, with the stamp that the clock and the truncates ask for;
- after a fault, a kill or want of memory it has a front of them, and nothing else has changed;
- `unpack` and `names` change nothing.

It prints each case that is wrong by its number, which with its seed makes it again, and ends with their number, at most
99."""

import argparse
import os
import pathlib
import random
import shutil
import struct
import subprocess
import sys
import tempfile
from collections import Counter

sys.dont_write_bytecode = True

from small_disk import GREATEST_STAMP, LAST_MARK, LATEST, LONGEST_CONTENT, LONGEST_NAME, WIDTH, Answer, Disk, Put, Told, input_fault, need, spelled
from trial import Library, Wrong, check

HERE = pathlib.Path(__file__).resolve().parent
SECONDS = 60

class Case:
    """One ROOT, the container p in it, and what is done to it."""

    def __init__(self, program, library, folder, source, log):
        self.program, self.library, self.folder, self.source, self.log = program, library, folder, source, log
        self.root = folder / "root"
        self.root.mkdir(parents=True)
        self.name, self.clock = "p", None
        self.names = [b"a", b"b", b"a.b", b"_x-", b"Z" * LONGEST_NAME, b"0"]

    # -- runs

    def run(self, *words, text=b"", rules=()):
        """Runs a command. The answer, and how often a call that a rule speaks of was reached."""
        told, hits = self.folder / "rules", self.folder / "hits"
        hits.unlink(missing_ok=True)
        lines = ([f"clock {self.clock}"] if self.clock is not None else []) + ([f"log {hits}"] if rules else []) + list(rules)
        told.write_text("\n".join([*lines, ""]))
        env = {"PATH": "/usr/bin:/bin", "LANG": "C.UTF-8"}
        if lines:
            env |= {"LD_PRELOAD": self.library, "PRELOAD_RULES": str(told)}
        made = subprocess.run([self.program, self.root, *words], input=text, env=env, stdout=subprocess.PIPE, stderr=subprocess.DEVNULL, timeout=SECONDS)
        self.log.append((words, text[:2000], rules, self.clock, made.returncode, made.stdout[:300]))
        return Answer(made.returncode, made.stdout), hits.read_text().splitlines() if hits.exists() else []

    def container(self):
        return self.root / self.name

    def is_there(self):
        return (self.container() / "access").exists()

    def disk(self):
        return Disk(self.container()) if self.is_there() else None

    def marks(self):
        folder = self.root / ".plfs" / "mounts"
        return {int(it.name) for it in folder.iterdir()} if folder.is_dir() else set()

    def kept(self):
        """All that lies in ROOT, but for what tells of runs, and what a broken one may leave: their names begin with a dot."""
        found = {}
        for at, folders, files in os.walk(self.root):
            folders[:] = [it for it in folders if it[0] != "."]
            for it in (*folders, *files):
                path = pathlib.Path(at, it)
                found[str(path.relative_to(self.root))] = path.read_bytes() if path.is_file() else None
        return found

    # -- what is asked for

    def content(self):
        length = self.source.choice([0, 0, 1, 2, 7, 8, 40, 300, self.source.randrange(3000)])
        return self.source.choice([bytes(length), self.source.randbytes(length), self.source.randbytes(length)])

    def files(self):
        many = self.source.choice([0, 1, 1, 2, 3, 5, 64, 65, self.source.randrange(1, 140)])
        if many > 5:
            return [(self.source.choice(self.names) if self.source.random() < 0.2 else b"f%d" % it, self.content()[:50]) for it in range(many)]
        return [(self.source.choice(self.names), self.content()) for _ in range(many)]

    def input(self):
        """Lines of files, of which some are wrong in some way."""
        rows = [b"%s %s" % (name, content.hex().encode() or b"-") for name, content in self.files()]
        for _ in range(self.source.choice([0, 0, 0, 0, 0, 1, 1, 2])):
            self.spoil(rows)
        text = b"\n".join(rows)
        return text + b"\n" if rows and self.source.random() < 0.9 else text

    def spoil(self, rows):
        source = self.source
        row = rows.pop(source.randrange(len(rows))) if rows else b"a 68"
        byte = bytes([source.choice(b" -.aA0fFgG_/\r\t\0\xff\n")])
        place = source.randrange(len(row) + 1)
        row = source.choice([row[:place] + byte + row[place:], row[:place] + row[place + 1 :], row[:place] + byte + row[place + 1 :], row + b" 00", b"", b"." + row, b"Z" * 65 + b" 00"])
        rows.insert(source.randrange(len(rows) + 1), row)

    def rules(self):
        """What goes wrong with a run: nothing, or one thing. The rules, and what must have become of a run that met it."""
        if self.source.random() < 0.6:
            return [], None
        what = self.source.choice(["fail", "fail", "kill", "kill", "memory", "short"])
        if what == "memory":
            return [f"fail ENOMEM memory {self.source.randint(1, 120)}+ *"], "memory"
        kind = self.source.choice(["write", "write", "sync", "create", "read", "list", "look", "remove", "mkdir", "open"])
        number = self.source.choice([1, 1, 2, 2, 3, 4, 5, 8, 13, 70])
        if what == "short":
            return [f"short {self.source.choice([1, 5, 39, 41])} {self.source.choice(['read', 'write'])} {number}+ {self.container()}/*"], None
        if what == "kill":
            return [f"kill 9 {kind} {number} {self.root}/*"], "kill"
        return [f"fail {self.source.choice(['EIO', 'ENOSPC'])} {kind} {number} {self.root}/*"], "fail"

    # -- what is judged

    def is_as_wanted(self, what, got, wanted, trouble, hits):
        """The answer, or that of a run that met what goes wrong."""
        if trouble == "fail" and any(row.split("\t")[1] in ("EIO", "ENOSPC") for row in hits):
            # ROOT is opened before the input is read.
            wanted = wanted if wanted.status == 2 and got == wanted else Answer(4, b"0 fault\n")
        # A kill may not have come, and memory may have sufficed.
        broken = {"memory": Answer(3, b""), "kill": Answer(-9, b"")}.get(trouble, wanted)
        need(got in (wanted, broken), f"{what} with {trouble}: {got}, and neither {wanted} nor {broken}")

    def reads(self, *words, wanted, rules=(), trouble=None):
        before = self.kept()
        got, hits = self.run(*words, rules=rules)
        self.is_as_wanted(words, got, wanted, trouble, hits)
        need(self.kept() == before, f"{words} changed something")

    def answers_of(self):
        """The answer of `names`, that of `unpack` by name, and that of `unpack` for any other name."""
        none = Answer(1, b"0 refused no-file\n")
        try:
            if not self.is_there():
                raise Told("refused no-file", 1)
            files = self.disk().small_files()
            return Answer(0, b"names " + (b",".join(sorted(files)) or b"-") + b"\n"), {name: Answer(0, content) for name, content in files.items()}, none
        except Told as told:
            return told.answer, {}, told.answer

    def read(self):
        """All is read: the names, of some files the content, and a file that isn't there."""
        names, contents, none = self.answers_of()
        rules, trouble = self.rules() if self.source.random() < 0.3 else ([], None)
        self.reads("names", self.name, wanted=names, rules=rules, trouble=trouble)
        chosen = [it for it in contents if it in self.names]
        chosen += self.source.sample(sorted(contents), min(len(contents), 2))
        for name in {*chosen[:4], b"f63", b"none"}:
            self.reads("unpack", self.name, name.decode(), wanted=contents.get(name, none))

    def pack(self):
        text, region = self.input(), self.source.choice([0, 0, 0, 1, 1, 7, 254, 255])
        rules, trouble = self.rules()
        fault, files = input_fault(text)
        before, marks = self.kept(), self.marks()
        puts, wanted = [], None
        if fault:
            wanted = Answer(2, b"pack %d %s\n" % (fault[0], fault[1].encode()))
        else:
            try:
                puts, wanted = self.packed(files, region, marks)
            except Told as told:
                wanted = told.answer
        got, hits = self.run("pack", self.name, str(region), text=text, rules=rules)
        self.is_as_wanted("pack", got, wanted, trouble, hits)
        writer = (max(marks, default=0) + 1 << 32) + 1
        if fault or max(marks, default=0) == LAST_MARK:
            need((self.kept(), self.marks()) == (before, marks), "a packing that was refused changed something")
        else:
            self.is_left(before, puts, wanted, got, writer)
        if got.status == -9 and not any(row.startswith("sync\t") and f".{writer}\t" in row for row in hits):
            self.loses(writer)

    def packed(self, files, region, marks):
        """The writes that put these files where the region ends, and the line that tells it."""
        if max(marks, default=0) == LAST_MARK:
            raise Told("refused mounts-spent", 1)
        disk, place = self.disk(), region * WIDTH
        if disk:
            place = disk.units(region)[1]
            if disk.is_held:
                raise Told("refused held", 1)
        floor = max((stamp for stamp, _ in disk.truncs), default=0) if disk else 0
        if files and floor == GREATEST_STAMP:
            raise Told("refused stamps-spent", 1)
        puts, last = [], 0
        for name, content in files:
            last = max(min(self.clock, LATEST), last + 1, floor + 1) if self.clock is not None else None
            puts.append(Put(place, spelled(name, content), last))
            place += len(puts[-1].data)
        return puts, Answer(0, b"packed %d end %d\n" % (len(files), place))

    def is_left(self, before, puts, wanted, got, writer):
        """Of what was there nothing changed, and the writer of the packing has its writes, or a front of them."""
        after = self.kept()
        changed = {path for path in before if after.get(path, b"?") != before[path]}
        need(not changed, f"a packing changed {changed}")
        own = {path for path in after if path not in before and path.endswith(f".{writer}")}
        whole = {self.name, *(f"{self.name}/{it}" for it in ("access", "openhosts", "metadata", "truncs", "flats", "hostdir.0"))}
        strange = set(after) - set(before) - own - whole
        need(not strange, f"a packing made {strange}")
        need(not own or wanted.status == 0 or wanted.out == b"0 refused stamps-spent\n", f"a packing that was not begun made {own}")
        disk = self.disk()
        found = disk.writers.get(writer, []) if disk else []
        if self.clock is None:
            puts = [it._replace(stamp=there.stamp) for it, there in zip(puts, found)] + puts[len(found) :]
        need(found == puts[: len(found)], f"the writer {writer} has {found}, which is no front of {puts}")
        if got.status:
            return
        need(len(found) == len(puts), f"{len(found)} of {len(puts)} files are there, and all are told")
        last = max((it.at + len(it.data) for it in puts), default=0)
        meta = f"{self.name}/metadata/{last}.{sum(len(it.data) for it in puts)}.{puts[-1].stamp if puts else 0}.0.{writer}"
        need(meta in own, f"{meta} isn't there")
        need(f"{self.name}/openhosts/0.{writer}" not in own, f"the writer {writer} is still open")
        need(len(after[f"{self.name}/hostdir.0/index.0.{writer}"]) == 40 * len(puts), "the index has another length")

    def loses(self, writer):
        """A loss of power takes any ends of the log and the index of a writer that never synced."""
        for kind in ("index", "log"):
            it = self.container() / "hostdir.0" / f"{kind}.0.{writer}"
            if it.exists() and self.source.random() < 0.5:
                os.truncate(it, self.source.randrange(it.stat().st_size + 1))

    # -- what else is done

    def bytes_of_units(self):
        """Units one behind the other, of which the last may be no unit."""
        source = self.source
        found = b"".join(spelled(source.choice(self.names), self.content()[:40]) for _ in range(source.choice([1, 1, 2, 3])))
        return found + source.choice([b"", b"", b"", self.no_unit()])

    def no_unit(self):
        source = self.source
        name, content = source.choice(self.names), source.randbytes(source.randrange(9))
        return source.choice([
            b"A", bytes(8), bytes(8) + b"\1", bytes(7) + b"\1", b"\xff" * source.randrange(1, 30),
            struct.pack("<QQ", 65, 0) + b"a" * 65,
            struct.pack("<QQ", 1, LONGEST_CONTENT + 1) + b"a",
            struct.pack("<QQ", 1, (1 << 64) - 1) + b"a",
            struct.pack("<QQ", (1 << 64) - 1, 1) + b"a",
            spelled(source.choice([b".a", b"-", b"a/b", b"a\n", b"\0", b"a ", b"\xc3\xa4"]), content),
            spelled(name, content)[: source.randrange(1, 16 + len(name) + len(content) + 1)],
        ])

    def places(self):
        """Places that matter: where regions begin and end, where units begin, and somewhere in them."""
        region = self.source.choice([0, 0, 1, 2, 255])
        found = [region * WIDTH, (region + 1) * WIDTH - self.source.choice([1, 7, 8, 20])]
        disk = self.disk()
        if disk:
            begins = [it.at for puts in disk.writers.values() for it in puts]
            found += begins[:50] + [it + self.source.randrange(40) for it in begins[:10]] + [disk.size]
            try:
                found += [disk.units(region)[1]] * 3
            except Told:
                pass
        return [it for it in found if it < (1 << 40) - 9000]

    def write(self):
        """One or two writers lay bytes there. They may stop in a call, leave without a close, or sync in between."""
        source = self.source
        actors = ["a"] if source.random() < 0.6 else ["a", "b"]
        head = [f"actor {it} {source.choice([0, 0, 1, 33])} {source.choice([1, 2, 64])}" for it in actors]
        rows = [f"{it} open {self.name}" for it in actors]
        for _ in range(source.randint(1, 4)):
            actor, place = source.choice(actors), source.choice(self.places())
            data = self.bytes_of_units() if source.random() < 0.7 else source.choice([self.no_unit(), bytes(source.randrange(40))])
            if source.random() < 0.08:
                rows.append(f"{actor} stop 1 {source.randrange(60)}")
            rows.append(f"{actor} write {place} hex:{data.hex()}")
            if source.random() < 0.2:
                rows.append(f"{actor} sync")
        rows += [f"{it} close" for it in actors if source.random() < 0.85]
        rules, _ = self.rules() if source.random() < 0.3 else ([], None)
        self.does("play", text="\n".join([*head, *rows, ""]).encode(), rules=rules)

    def does(self, *words, text=b"", rules=()):
        """A command that is not judged: it tells no damage, and without trouble it has no fault. What it printed."""
        got, _ = self.run(*words, text=text, rules=rules)
        need(got.status in (0, 1) or (rules and got.status in (3, 4, -9)), f"{words}: {got}")
        return got.out

    def trunc(self):
        size = self.source.choice([*self.places(), 0, 1 << 40])
        if self.source.random() < 0.15:
            rows = ["actor a", f"a stop {self.source.randint(2, 6)} {self.source.randrange(2)}", f"a trunc {self.name} {size}", ""]
            self.does("play", text="\n".join(rows).encode())
        else:
            self.does("trunc", self.name, str(size))

    def rename(self):
        other = "q" if self.name == "p" else "p"
        if self.does("rename", self.name, other) == b"0 renamed\n":
            self.name = other

    def other(self):
        self.does(self.source.choice(["flatten", "migrate", "recover", "recover"]), self.name)

    def damaged(self):
        """An item is damaged, each command of small files tells it, and it is mended."""
        disk = self.disk()
        if not disk or LAST_MARK in self.marks():
            return
        folders = [it.name for it in self.container().iterdir() if it.is_dir() and it.name not in ("openhosts", "metadata")]
        folder, strange = self.source.choice(["", *folders]), self.source.choice(["x", "07", "1.2.3.4.5.6", "%41", "index.1"])
        whole = f"{folder}/{strange}".removeprefix("/")
        (self.container() / whole).touch()
        self.tells(f"damaged {whole.replace('%', '%25')} 0", 7)
        (self.container() / whole).unlink()
        # An entry that a flattened or a packed index covers is not looked at.
        if any(self.container().glob("flats/*")) or any(self.container().glob("hostdir.*/index2.*")):
            return
        for writer, puts in disk.writers.items():
            (index,) = self.container().glob(f"hostdir.*/index.*.{writer}")
            was = index.read_bytes()
            if puts and self.source.random() < 0.5:
                number = self.source.randrange(len(puts))
                field, value = self.source.choice([(1, 0), (3, 0), (3, 1 << 63), (4, 1), (0, 1 << 40)])
                place = 40 * number + 8 * field
                index.write_bytes(was[:place] + struct.pack("<Q", value) + was[place + 8 :])
                self.tells(f"damaged {index.parent.name}/{index.name} {40 * number}", 7)
                index.write_bytes(was)

    def tells(self, line, status):
        """Each of the three commands ends with this line alone, and changes nothing."""
        before, wanted = self.kept(), Told(line, status).answer
        for words, text in ((("names", self.name), b""), (("unpack", self.name, "a"), b""), (("pack", self.name, "0"), b"a 68\n")):
            got, _ = self.run(*words, text=text)
            need(got == wanted, f"{words}: {got}, and not {wanted}")
        need(self.kept() == before, f"with {line!r} something changed")

    def spent(self):
        """The last stamp is a truncate's, or the last mark is there. What comes after it is refused."""
        if self.source.random() < 0.5 and self.is_there():
            size = self.source.choice(self.places())
            (self.container() / "truncs" / f"{GREATEST_STAMP}.{size}").touch()
        elif (self.root / ".plfs" / "mounts").is_dir():
            (self.root / ".plfs" / "mounts" / str(LAST_MARK)).touch()

    def step(self):
        source = self.source
        if self.library and source.random() < 0.5:
            # Few times, so that stamps meet and stand the other way round.
            self.clock = source.choice([None, 0, 1, 5, 10**18, 10**18 + 3, 1 << 62, (1 << 62) + 9])
        kind = source.choices(["pack", "write", "trunc", "rename", "other", "damaged", "spent"], [10, 6, 2, 1, 3, 1, 0.2])[0]
        getattr(self, kind)()

    def make(self, steps):
        for _ in range(steps):
            self.step()
            if LAST_MARK in self.marks():
                self.tells("refused mounts-spent", 1)
            else:
                self.read()


def tried(program, library, folder, seed, number):
    """Makes a case. What is wrong of it, or None, and what was done."""
    log = []
    place = folder / f"case{number}"
    case = Case(program, library, place, random.Random(f"{seed} {number}"), log)
    try:
        case.make(case.source.choice([2, 4, 6, 9]))
        return None, log
    except Wrong as wrong:
        return str(wrong), log
    finally:
        shutil.rmtree(place, ignore_errors=True)


@check
def random_small_files_are_answered_as_a_model_of_the_disk_says(trial):
    trial.library.is_there()
    for number in range(12):
        wrong, log = tried(trial.program, trial.library.path, trial.folder, trial.random.random(), number)
        need(wrong is None, f"{wrong}, after {log[-1] if log else None}")


def main():
    asked = argparse.ArgumentParser()
    asked.add_argument("--cases", type=int, default=1000)
    asked.add_argument("--first", type=int, default=0)
    asked.add_argument("--seed", default="1")
    asked.add_argument("--folder", default=None)
    asked.add_argument("--program", default=str(HERE.parent / "crates" / "plfs" / "out" / "plfs"))
    words = asked.parse_args()
    wrong, done = 0, Counter()
    with tempfile.TemporaryDirectory(prefix="plfs-model-", dir=words.folder) as folder:
        library = Library(HERE / "preload.c", folder)
        if library.lacks:
            print(f"{library.lacks}: no call fails, and the clock goes")
        for number in range(words.first, words.first + words.cases):
            said, log = tried(words.program, None if library.lacks else library.path, pathlib.Path(folder), words.seed, number)
            done.update((it[0][0], it[4]) for it in log)
            if said:
                wrong += 1
                print(f"case {number}: {said}"[:3000])
                for it in log:
                    print(f"    {it}"[:600])
    for (command, status), times in sorted(done.items()):
        print(f"{command} ended with {status}: {times}")
    print(f"{words.cases} cases, {wrong} wrong")
    return min(wrong, 99)


if __name__ == "__main__":
    sys.exit(main())
