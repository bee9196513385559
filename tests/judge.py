#!/usr/bin/env python3
"""Judges a run by what the page of crates/headline says of it: its script, its lines, and the folders before and after.

    tests/judge.py SCRIPT LINES BEFORE AFTER [play|run]

It is written from the page alone, field by field under the fields' names, and knows nothing of calls or of the program's
code. It prints a line for each field that fails, with the number of the line, and ends with their number, at most 99.

The page says that some story fits: in which order containers got their names, and of which container each line speaks. The
judge looks for one, among so many. A folder doesn't tell the numbers of its containers either, so it tries their orders.
Of a real folder's clock and of its store's faults nothing is known: any time may have been told, and no fault."""

import itertools
import os
import re
import sys
from collections import namedtuple
from pathlib import Path

GREATEST_SIZE, GREATEST_STAMP = 2**40, 2**63 - 1
MARKS = ".plfs"
# How many orders of containers, and how many stories of each, are tried.
ORDERS, STORIES = 120, 400

Actor = namedtuple("Actor", "host capacity")
Statement = namedtuple("Statement", "number phase actor verb words")
Line = namedtuple("Line", "number kind fields")
Told = namedtuple("Told", "phase place actor verb words kind fields")
Room = namedtuple("Room", "name folders files")
Write = namedtuple("Write", "at data physical stamp writer")
Truncate = namedtuple("Truncate", "stamp size")
Writer = namedtuple("Writer", "host id writes least most")
Naming = namedtuple("Naming", "by number name")


class Wrong(Exception):
    """A clause of the page doesn't hold."""


def need(fact, what):
    if not fact:
        raise Wrong(what)


# What is given: scripts, lines, folders


def data_of(word):
    form, _, rest = word.partition(":")
    if form == "hex":
        return bytes.fromhex(rest)
    if form == "text":
        return rest.encode()
    length, first = (int(it) for it in rest.split(":"))
    return bytes((first + (j if form == "ramp" else 0)) % 256 for j in range(length))


def script_of(text):
    """The actors in their order, the statements as they are written, and whether turns are written."""
    actors, places, statements, phase, turns = [], {}, [], 0, False
    for number, line in enumerate(text.split("\n"), 1):
        words = line.split(" ")
        if not line or line.startswith("#"):
            continue
        if words[0] == "actor":
            host, capacity = (int(it) for it in [*words[2:], *["0", "64"][len(words) - 2 :]])
            places[words[1]] = len(actors)
            actors.append(Actor(host, capacity))
        elif words[0] == "phase":
            phase += 1
        elif words[0] == "turn":
            turns = True
        else:
            statements.append(Statement(number, phase, places[words[0]], words[1], words[2:]))
    return actors, statements, turns


def pairs(word):
    """A list of two numbers each."""
    return [] if word == "-" else [tuple(int(it) for it in one.split(":")) for one in word.split(",")]


def plain_list(word):
    return [] if word == "-" else word.split(",")


def line_of(text):
    number, kind, *words = text.split(" ")
    match kind:
        case "open" | "synced" | "closed" | "differs" | "truncated":
            fields = int(words[0])
        case "wrote":
            fields = int(words[0]), int(words[1]), None if words[2] == "-" else int(words[2])
        case "reader":
            fields = int(words[0]), pairs(words[2]), [Truncate(*it) for it in pairs(words[4])]
        case "read":
            fields = int(words[0]), b"" if words[1] == "-" else bytes.fromhex(words[1])
        case "map":
            fields = [] if words == ["-"] else words
        case "stat":
            fields = int(words[0]), int(words[1]), pairs(words[3]), [Truncate(*it) for it in pairs(words[5])]
        case "flattened":
            fields = int(words[0]), int(words[1]), pairs(words[3])
        case "recovered":
            fields = pairs(words[0]), [int(it) for it in plain_list(words[2])], words[4] == "yes"
        case "ls":
            fields = plain_list(words[0])
        case "refused":
            fields = tuple([words[0], *(int(it) for it in words[1:])])
        case _:
            fields = None
    return Line(int(number), kind, fields)


def lines_of(text):
    return [line_of(line) for line in text.split("\n") if line]


def tree_of(folder):
    """The rooms of a folder: of each its name, its folders, and its files with their bytes."""
    rooms = []
    for name in sorted(os.listdir(folder)):
        room = Room(name, set(), {})
        for at, inner, files in os.walk(Path(folder, name)):
            part = os.path.relpath(at, Path(folder, name))
            room.folders.update(inner)
            for file in files:
                room.files["" if part == "." else part, file] = Path(at, file).read_bytes()
        if os.path.isdir(Path(folder, name)):
            rooms.append(room)
    return rooms


# Items of a container


def index(host, writer):
    return f"hostdir.{host % 32}", f"index.{host}.{writer}"


def log(host, writer):
    return f"hostdir.{host % 32}", f"log.{host}.{writer}"


def open_host(host, writer):
    return "openhosts", f"{host}.{writer}"


def truncate(one):
    return "truncs", f"{one.stamp}.{one.size}"


def numbers_in(room, folder, form):
    """The numbers in the names of this form, one tuple a name."""
    found = []
    for at, name in room.files:
        if re.fullmatch(folder, at) and (match := re.fullmatch(form, name)):
            found.append(tuple(int(it) for it in match.groups()))
    return found


def indices_in(room):
    return numbers_in(room, r"hostdir\.\d+", r"index\.(\d+)\.(\d+)")


def open_hosts_in(room):
    return numbers_in(room, "openhosts", r"(\d+)\.(\d+)")


def truncates_in(room):
    return sorted(Truncate(*it) for it in numbers_in(room, "truncs", r"(\d+)\.(\d+)"))


def landed_writes(room, host, writer):
    """The writes of a writer that have landed: those of the first whole entries that end within the log."""
    entries, kept, found = room.files.get(index(host, writer), b""), room.files.get(log(host, writer), b""), []
    for k in range(len(entries) // 40):
        at, length, physical, stamp, by = (int.from_bytes(entries[40 * k + 8 * j :][:8], "little") for j in range(5))
        if physical + length > len(kept):
            break
        found.append(Write(at, kept[physical : physical + length], physical, stamp, by))
    return found


# A plain file


class File:
    """The file that these writes and truncates make: each byte is that of the newest write, unless a truncate hid it."""

    def __init__(self, changes):
        key = lambda it: (it.stamp, isinstance(it, Truncate), it.size if isinstance(it, Truncate) else it.writer)
        self.bytes, self.owners = bytearray(), []
        for change in sorted(changes, key=key):
            if isinstance(change, Truncate):
                self.resize(change.size)
                del self.bytes[change.size :], self.owners[change.size :]
            elif change.data:
                self.resize(change.at)
                self.bytes[change.at : change.at + len(change.data)] = change.data
                self.owners[change.at : change.at + len(change.data)] = [(change, j) for j in range(len(change.data))]

    def resize(self, size):
        missing = max(0, size - len(self.bytes))
        self.bytes += bytes(missing)
        self.owners += [None] * missing

    def pieces(self):
        """The maximal runs of bytes that one write shows, as a map spells them."""
        runs = []
        for at, owner in enumerate(self.owners):
            if owner is None:
                continue
            write, j = owner
            if runs and runs[-1][0] is write and runs[-1][1] + runs[-1][2] == at and runs[-1][3] + runs[-1][2] == j:
                runs[-1][2] += 1
            else:
                runs.append([write, at, 1, j])
        return [f"{at}+{length}={write.stamp}.{write.writer}@{write.physical + j}" for write, at, length, j in runs]


def rise(numbers):
    listed = list(numbers)
    return listed == sorted(set(listed))


# The run


KINDS = {
    "open": ["open"], "write": ["wrote"], "sync": ["synced"], "close": ["closed"], "ropen": ["reader"], "refresh": ["reader"], "read": ["read"],
    "verify": ["same", "differs"], "map": ["map"], "rclose": ["rclosed"], "stat": ["stat"], "flatten": ["flattened"], "recover": ["recovered"],
    "trunc": ["truncated"], "rename": ["renamed"], "ls": ["ls"], "stop": ["armed"],
}  # fmt: skip
NAMING = ["open", "ropen", "stat", "flatten", "recover", "trunc", "rename"]
BROKE = ["fault", "stopped"]
HOLDS = ["trunc", "rename"]
USES_READER = ["read", "verify", "map", "refresh", "rclose"]
USES_WRITER = ["write", "sync", "close"]


class Run:
    def __init__(self, script, lines, before, after, in_order=False):
        self.actors, self.statements, _ = script
        self.lines, self.rooms_before, self.rooms, self.in_order = lines, before, after, in_order
        self.told = [Told(s.phase, place, s.actor, s.verb, s.words, line.kind, line.fields) for place, (s, line) in enumerate(zip(self.statements, lines))]
        self.accounts = {}

    def surely_before(self, s, t):
        return s.place < t.place and (self.in_order or s.phase < t.phase or s.actor == t.actor)

    def before(self, t):
        return [s for s in self.told if self.surely_before(s, t)]

    def so_far(self, t):
        return [s for s in self.told if not self.surely_before(t, s)]

    def own(self, actor, lines):
        return [s for s in lines if s.actor == actor]

    def mine(self, t):
        """The lines of the same actor before it."""
        return self.own(t.actor, self.before(t))

    def account(self, actor, writer, lines):
        """What these lines of an actor tell of the writer: its writes, and how many have landed at least and at most."""
        own = self.own(actor, lines)
        key = writer, tuple(s.place for s in own)
        if key not in self.accounts:
            self.accounts[key] = self.counted(self.actors[actor].capacity, writer, own)
        return self.accounts[key]

    def counted(self, capacity, writer, own):
        latest, writes, least, most = False, [], 0, 0
        for s in own:
            if s.kind == "open":
                latest = s.fields == writer
                continue
            if not latest:
                continue
            wrote = s.verb == "write" and s.kind == "wrote" and s.fields[2] is not None
            refused = s.verb == "write" and s.kind == "refused" and s.fields[0] in ("too-far", "stamps-spent")
            if (wrote or refused) and capacity <= len(writes) - least:
                least, most = len(writes) if least == most else least, len(writes)
            if wrote:
                data = data_of(s.words[1])
                writes = [*writes, Write(int(s.words[0]), data, sum(len(w.data) for w in writes), s.fields[2], writer)]
            if s.kind in ("synced", "closed"):
                least = most = s.fields
            if s.verb in USES_WRITER and not (refused or s.kind in ("wrote", "synced", "closed", "gone")):
                most = len(writes)
        return writes, least, most

    # ---- what an actor has

    def writing(self, lines):
        """Which writer an actor has after these lines of its own, and whether that is sure."""
        writer, sure = None, True
        for s in lines:
            if s.verb == "open":
                if s.kind == "open":
                    writer, sure = s.fields, True
                elif (s.kind, s.fields) != ("refused", ("already-open",)):
                    writer, sure = None, True
            elif s.verb == "close":
                writer, sure = (None, True) if s.kind == "closed" else (writer, False)
        return writer, sure

    def writer_at(self, t):
        return self.writing(self.mine(t))[0]

    def may_lack_writer(self, t):
        writer, sure = self.writing(self.mine(t))
        return writer is None or not sure

    def reader_at(self, t):
        """The line that opened the actor's reader, or refreshed it last."""
        reader = None
        for s in self.mine(t):
            reader = s if s.kind == "reader" else None if s.kind == "rclosed" else reader
        return reader

    def openers(self, writer):
        return [o for o in self.told if o.kind == "open" and o.fields == writer]


class Judge:
    """One run with one story: the namings, and the container of each line by its place."""

    def __init__(self, run, namings, of):
        self.run, self.namings, self.containers = run, namings, of

    def of(self, t):
        return self.containers.get(t.place, -1)

    def before(self, n):
        """The container of this number in the tree before, or an empty one."""
        rooms = self.run.rooms_before
        return rooms[n] if 0 <= n < len(rooms) else Room("", set(), {})

    def after(self, n):
        return self.run.rooms[n] if 0 <= n < len(self.run.rooms) else Room("", set(), {})

    # ---- names

    def first_names(self):
        names = [room.name for room in self.run.rooms_before]
        return names if MARKS in names else [*names, MARKS]

    def may_stand(self, t):
        """The names that may stand while the line's statement is made."""
        names, run = self.first_names(), self.run
        for k in range(len(self.namings) + 1):
            begun = all(not run.surely_before(t, one.by) for one in self.namings[:k])
            if begun and all(not run.surely_before(one.by, t) for one in self.namings[k:]):
                yield names
            if k < len(self.namings):
                one = self.namings[k]
                names = [*names[: one.number], one.name, *names[one.number + 1 :]]

    def finds(self, t):
        n = self.of(t)
        need(t.verb in NAMING, "its statement names no container")
        need(any(0 <= n < len(names) and names[n] == t.words[0] for names in self.may_stand(t)), "its container never had the name")

    def names(self):
        names, run = self.first_names(), self.run
        for k, one in enumerate(self.namings):
            s = one.by
            made = s.verb == "open" and s.words[0] == one.name and one.number == len(names)
            made = made and (s.kind in ["open", *BROKE] or (s.kind == "refused" and s.fields in [("held",), ("ids-spent",)]))
            moved = s.verb == "rename" and s.words[1] == one.name and one.number < len(names) and s.kind in ["renamed", *BROKE]
            need((made or moved) and one.name not in names, "a naming that can't be")
            need(all(not run.surely_before(m.by, s) and m.by.place != s.place for m in self.namings[k + 1 :]), "namings out of order")
            need(self.of(s) == one.number, "a naming of another container")
            names = [*names[: one.number], one.name, *names[one.number + 1 :]]
        need(names == [room.name for room in run.rooms], "other names after")
        for t in run.told:
            if t.verb != "refresh" and 0 <= self.of(t) < len(run.rooms):
                self.finds(t)
            need(t.kind != "renamed" or any(one.by is t for one in self.namings), "a rename that gave no name")

    # ---- writers

    def opened(self, t):
        run, room, host = self.run, self.after(self.of(t)), self.run.actors[t.actor].host
        self.finds(t)
        need(index(host, t.fields) in room.files and log(host, t.fields) in room.files, "its index or its log doesn't stand")
        need(len(run.openers(t.fields)) == 1, "its number was given twice")
        need(all(t.fields != writer for old in run.rooms_before for _, writer in indices_in(old)), "its number is an old one")

    def truncate_stamps(self, n):
        return {0} | {it.stamp for it in truncates_in(self.after(n))}

    def stamps(self, n):
        return self.truncate_stamps(n) | {stamp for _, _, stamp, _, _ in numbers_in(self.after(n), "metadata", r"(\d+)\.(\d+)\.(\d+)\.(\d+)\.(\d+)")}

    def is_stamp(self, stood, last, stamp):
        """The clock's time, which may be any, or the next above what came before."""
        lowest = [max(last, one) + 1 for one in stood]
        return stamp <= GREATEST_STAMP and any(stamp == low or low < stamp <= 2**62 for low in lowest)

    def wrote(self, t):
        (at, length, stamp), data = t.fields, data_of(t.words[1])
        need(at == int(t.words[0]) and length == len(data), "another place or length")
        need((stamp is None) == (length == 0), "a stamp without bytes, or bytes without one")

    def stamped(self, t):
        run, (at, length, stamp) = self.run, t.fields
        writer = run.writer_at(t)
        if stamp is not None and writer is not None:
            writes = run.account(t.actor, writer, run.before(t))[0]
            need(at + length <= GREATEST_SIZE, "past the greatest size")
            need(all(self.is_stamp(self.truncate_stamps(self.of(o)), writes[-1].stamp if writes else 0, stamp) for o in run.openers(writer)), "its stamp")

    def synced(self, t):
        writer = self.run.writer_at(t)
        if writer is not None:
            need(t.fields == len(self.run.account(t.actor, writer, self.run.before(t))[0]), "another number than that of its writes")

    # ---- files

    def writers(self, n, sure, maybe):
        """The writers of a container: those that its tree had before, and those that lines opened."""
        old, run = self.before(n), self.run
        for host, writer in indices_in(old):
            writes = landed_writes(old, host, writer)
            yield Writer(host, writer, writes, len(writes), len(writes))
        for o in run.told:
            if o.kind == "open" and self.of(o) == n:
                least, most = run.account(o.actor, o.fields, sure)[1], run.account(o.actor, o.fields, maybe)[2]
                yield Writer(run.actors[o.actor].host, o.fields, run.account(o.actor, o.fields, run.told)[0], least, most)

    def cut(self, t, n, counts):
        """The writes of a cut that the line may see."""
        writers = {w.id: w for w in self.writers(n, self.run.before(t), self.run.so_far(t))}
        need(rise(writer for writer, _ in counts), "writers that don't rise")
        for writer, count in counts:
            need(writer in writers and count >= 1, "a writer that isn't one of the container")
        for w in writers.values():
            count = dict(counts).get(w.id, 0)
            need(w.least <= count <= w.most, f"{count} of writer {w.id}, at least {w.least} and at most {w.most}")
        return [write for writer, count in counts for write in writers[writer].writes[:count]]

    def truncates(self, s, n, one):
        made = (s.kind, s.fields) == ("truncated", one.stamp) or s.kind in BROKE
        return s.verb == "trunc" and int(s.words[1]) == one.size and self.of(s) == n and made

    def shown_truncates(self, t, n, writes, truncs):
        run, last = self.run, self.after(n)
        need(rise(one.stamp for one in truncs), "truncates that don't rise")
        need(all(one in truncs for one in truncates_in(self.before(n))), "a truncate that stood before is missing")
        for s in run.told:
            if s.kind == "truncated" and self.of(s) == n and run.surely_before(s, t):
                need(Truncate(s.fields, int(s.words[1])) in truncs, "a truncate that was told before is missing")
        for one in truncs:
            made = any(self.truncates(s, n, one) and not run.surely_before(t, s) for s in run.told)
            need(made or truncate(one) in self.before(n).files, "a truncate that nobody made")
            need(truncate(one) in last.files, "a truncate that doesn't stand after")
        for one in truncates_in(last):
            later = all(write.stamp < one.stamp for write in writes) and all(it.stamp < one.stamp for it in truncs)
            need(one in truncs or later, "a later truncate that isn't newer")

    def reader(self, t):
        run, (size, cut, truncs), n = self.run, t.fields, self.of(t)
        if t.verb == "refresh":
            n = self.containers[t.place] = self.of(run.reader_at(t))
        else:
            self.finds(t)
        writes = self.cut(t, n, cut)
        self.shown_truncates(t, n, writes, truncs)
        file = File([*writes, *truncs])
        need(size == len(file.bytes), f"its size, which is {len(file.bytes)}")
        for s in run.told:
            if run.reader_at(s) is t:
                self.answers(s, file)

    def refreshed(self, t):
        _, cut, truncs = t.fields
        _, counts, stood = self.run.reader_at(t).fields
        need(all(count <= dict(cut).get(writer, 0) for writer, count in counts), "a count below the former one")
        need(truncs[: len(stood)] == stood, "a former truncate is missing")

    def answers(self, s, file):
        """The field of this name is judged with `reader`, whose file it is."""
        where = f"the answer of line {self.run.lines[s.place].number}"
        if s.kind == "read":
            at, length = int(s.words[0]), int(s.words[1])
            need(s.fields == (at, bytes(file.bytes[at : at + length])), where)
        elif s.kind in ("same", "differs"):
            at, wanted = int(s.words[0]), data_of(s.words[1])
            found = file.bytes[at : at + len(wanted)]
            differing = next((j for j, byte in enumerate(wanted) if j >= len(found) or found[j] != byte), None)
            need(s.fields == (None if differing is None else min(at + differing, 2**64 - 1)), where)
        elif s.kind == "map":
            need(s.fields == file.pieces(), where)

    def stat(self, t):
        size, stored, shares, truncs = t.fields
        self.finds(t)
        writers = {w.id: w for w in self.writers(self.of(t), self.run.before(t), self.run.so_far(t))}
        counts = []
        for writer, share in shares:
            need(writer in writers, "a share of no writer of the container")
            sums = list(itertools.accumulate(len(write.data) for write in writers[writer].writes))
            need(share in sums, "a share that is of no front of its writes")
            counts.append((writer, sums.index(share) + 1))
        writes = self.cut(t, self.of(t), counts)
        self.shown_truncates(t, self.of(t), writes, truncs)
        need(size == len(File([*writes, *truncs]).bytes), "its size")
        need(stored == sum(len(write.data) for write in writes), "its stored bytes")

    def flattened(self, t):
        number, pieces, cut = t.fields
        self.finds(t)
        need(pieces == len(File(self.cut(t, self.of(t), cut)).pieces()), "its number of pieces")
        need(("flats", str(number)) in self.after(self.of(t)).files, "it doesn't stand")

    def listed(self, t):
        need(any(sorted(name for name in names if name != MARKS) == t.fields for names in self.may_stand(t)), "names that never stood")

    # ---- changes

    def truncated(self, t):
        run, n, one = self.run, self.of(t), Truncate(t.fields, int(t.words[1]))
        self.finds(t)
        need(truncate(one) in self.after(n).files, "it doesn't stand")
        need(self.is_stamp(self.stamps(n) - {one.stamp}, 0, one.stamp), "its stamp")
        for w in self.writers(n, run.before(t), run.so_far(t)):
            need(all(write.stamp < one.stamp for write in w.writes[: w.least]), "it isn't above what had landed")
        for s in run.told:
            if s.kind == "wrote" and s.fields[2] is not None and run.surely_before(t, s):
                if any(self.of(o) == n for o in run.openers(run.writer_at(s))):
                    need(one.stamp < s.fields[2], "a later write is below it")
        need(all(it.size == one.size for it in truncates_in(self.after(n)) if it.stamp == one.stamp), "two of one stamp")

    def renamed(self, t):
        self.finds(t)

    def may_be_dead(self, t, actor, writer):
        for s in self.run.own(actor, self.run.told):
            if not self.run.surely_before(t, s):
                closing = s.verb == "close" and self.run.writer_at(s) == writer and s.kind in ("fault", "closed")
                if s.kind == "stopped" or closing:
                    return True
        return False

    def opens_in(self, o, n, host, writer):
        """Whether the line opened this writer in the container, or may have done it before it broke."""
        made = (o.kind, o.fields) == ("open", writer) or o.kind in BROKE
        return o.verb == "open" and self.of(o) == n and self.run.actors[o.actor].host == host and made

    def is_alive(self, t, host, writer):
        run = self.run
        closed = any(s.kind == "closed" and run.surely_before(s, t) and run.writer_at(s) == writer for s in run.told)
        return not closed and any(self.opens_in(o, self.of(t), host, writer) and not run.surely_before(t, o) for o in run.told)

    def recovered(self, t):
        run, n, (buried, alive, hold) = self.run, self.of(t), t.fields
        last, writers = self.after(n), list(self.writers(n, run.before(t), run.so_far(t)))
        self.finds(t)
        need(rise(writer for writer, _ in buried) and rise(alive), "writers that don't rise")
        standing = {writer for _, writer in numbers_in(last, "openhosts", r"(\d+)\.(\d+)")}
        for writer, count in buried:
            need(writer not in standing, "one that was taken out stands")
            need(all(self.of(o) == n and self.may_be_dead(t, o.actor, writer) for o in run.openers(writer)), "one that was alive is taken out")
            need(all(w.least <= count <= w.most for w in writers if w.id == writer), "its count")
            hosts = [host for host, it in indices_in(last) if it == writer] or [0]
            need(any(len(landed_writes(last, host, writer)) == count for host in hosts), "another number of its entries is left")
            need(all(len(landed_writes(last, w.host, writer)) == count for w in writers if w.id == writer), "another number of its entries is left under its host")
            need(count == 0 or any(w.id == writer for w in writers), "one that wrote, and no line opened it")
        for writer in alive:
            need(any(self.is_alive(t, actor.host, writer) for actor in run.actors), "one is alive that no line opened, or that was closed")
        if hold:
            need(not buried and not alive and self.may_be_held(t), "a hold beside writers, or of nobody")
            return
        old = {writer for _, writer in numbers_in(self.before(n), "openhosts", r"(\d+)\.(\d+)")}
        need(not old & standing, "one of the tree before is left")
        for o in run.told:
            if o.kind == "open" and self.of(o) == n and run.surely_before(o, t) and not self.may_be_dead(t, o.actor, o.fields):
                need(o.fields in alive, "one that is alive isn't named")

    # ---- refusals

    def is_open_in(self, t, host, writer):
        run, n = self.run, self.of(t)
        taken = any(s.kind == "recovered" and run.surely_before(s, t) and self.of(s) == n and writer in dict(s.fields[0]) for s in run.told)
        return open_host(host, writer) in self.before(n).files and not taken or self.is_alive(t, host, writer)

    def may_be_held(self, t):
        run, n = self.run, self.of(t)
        if 0 <= n < len(run.rooms_before) and "openhosts" not in self.before(n).folders:
            return True
        return any(s.verb in HOLDS and s.place != t.place and self.of(s) == n and not run.surely_before(t, s) and (not run.surely_before(s, t) or s.kind in BROKE) for s in run.told)

    def refused(self, t):
        run, n, why = self.run, self.of(t), t.fields[0]
        match why:
            case "no-file":
                need(t.verb in NAMING and any(t.words[0] not in names for names in self.may_stand(t)), "a container had the name all the time")
            case "busy":
                need(t.verb in HOLDS, "nothing is held")
                self.finds(t)
                need(self.is_open_in(t, *t.fields[1:]), "that writer didn't have it open")
            case "held":
                self.finds(t)
                others = [s for s in run.told if s.verb in HOLDS and self.of(s) == n and not run.surely_before(t, s) and not run.surely_before(s, t)]
                need(others if t.verb == "recover" else self.may_be_held(t), "nobody held it")
            case "exists":
                self.finds(t)
                need(t.verb == "rename" and any(t.words[1] in names for names in self.may_stand(t)), "no container had the new name")
            case "too-far":
                end = int(t.words[0]) + len(data_of(t.words[1])) if t.verb == "write" else int(t.words[1]) if t.verb == "trunc" else 0
                need(end > GREATEST_SIZE, "it ends within the limit")
            case "stamps-spent":
                if t.verb == "trunc":
                    need(GREATEST_STAMP in self.stamps(n), "a stamp is left")
                else:
                    writer = run.writer_at(t)
                    writes = run.account(t.actor, writer, run.before(t))[0] if writer is not None else []
                    spent = any(GREATEST_STAMP in self.truncate_stamps(self.of(o)) for o in run.openers(writer))
                    need(spent or (writes and writes[-1].stamp == GREATEST_STAMP), "a stamp is left")
            case "not-open":
                need(t.verb in USES_READER and run.reader_at(t) is None or t.verb in USES_WRITER and run.may_lack_writer(t), "its actor has it open")
            case "already-open":
                need(t.verb == "ropen" and run.reader_at(t) is not None or t.verb == "open" and run.writer_at(t) is not None, "its actor has none open")
            case _:
                need(False, "no statement is refused for that")

    def made(self, t):
        run = self.run
        if t.verb == "open":
            need(run.may_lack_writer(t), "its actor has a writer")
        elif t.verb == "ropen":
            need(run.reader_at(t) is None, "its actor has a reader")
        elif t.verb in USES_READER:
            need(run.reader_at(t) is not None, "its actor has no reader")
        elif t.verb in USES_WRITER:
            need(run.writer_at(t) is not None, "its actor has no writer")

    # ---- the tree after

    def left(self, n, w):
        room = self.after(n)
        landed = landed_writes(room, w.host, w.id)
        need(w.least <= len(landed) <= w.most and landed == w.writes[: len(landed)], f"writer {w.id} left {len(landed)} entries, at least {w.least} and at most {w.most}")
        need(room.files.get(log(w.host, w.id), b"").startswith(b"".join(write.data for write in w.writes)), f"the log of writer {w.id} begins otherwise")

    def closed(self, n, w):
        end = max((write.at + len(write.data) for write in w.writes), default=0)
        stamp = w.writes[-1].stamp if w.writes else 0
        name = f"{end}.{sum(len(write.data) for write in w.writes)}.{stamp}.{w.host}.{w.id}"
        need(("metadata", name) in self.after(n).files and open_host(w.host, w.id) not in self.after(n).files, f"writer {w.id} was closed and hasn't left")

    def kept(self, n, w):
        need(open_host(w.host, w.id) in self.after(n).files, f"writer {w.id} is open and has left")

    def truncs(self, n):
        old, last = self.before(n), self.after(n)
        need(all(truncate(one) in last.files for one in truncates_in(old)), "a truncate is gone")
        for one in truncates_in(last):
            need(truncate(one) in old.files or any(self.truncates(s, n, one) for s in self.run.told), "a truncate that nobody made")

    def indices(self, n):
        for host, writer in indices_in(self.after(n)):
            opened = any(self.opens_in(o, n, host, writer) for o in self.run.told)
            need(index(host, writer) in self.before(n).files or opened, f"an index of writer {writer}, whom nobody opened")

    def entries(self, n):
        for host, writer in open_hosts_in(self.after(n)):
            opened = any(self.opens_in(o, n, host, writer) for o in self.run.told)
            need(open_host(host, writer) in self.before(n).files or opened, f"an entry of writer {writer}, whom nobody opened")

    # ---- the page

    def complaints(self):
        run, found = self.run, []

        def field(name, check, *given, line=None):
            try:
                check(*given)
            except Wrong as wrong:
                found.append(f"{name}{'' if line is None else f', line {line}'}: {wrong}")

        if [line.number for line in run.lines] != [s.number for s in run.statements]:
            return ["numbered: other numbers than those of the statements"]
        kinds = [(line.number, t) for line, t in zip(run.lines, run.told) if t.kind not in [*KINDS[t.verb], "stopped", "gone", "fault", "refused"]]
        if kinds:
            return [f"kinds, line {number}: `{t.kind}` of `{t.verb}`" for number, t in kinds]
        field("names", self.names)
        fields = {"open": "opened", "closed": "synced", "ls": "listed"}
        for line, t in zip(run.lines, run.told):
            was_stopped = any(s.kind == "stopped" for s in run.mine(t))
            if t.kind not in ("refused", "stopped", "gone"):
                field("made", self.made, t, line=line.number)
            if t.kind == "stopped":
                field("stopped", need, [s.kind for s in run.mine(t)][-1:] == ["armed"], "no stop was armed", line=line.number)
            field("gone" if t.kind == "gone" else "ended", need, (t.kind == "gone") == was_stopped, "a stop, or none", line=line.number)
            field("fault", need, t.kind != "fault", "the store didn't fail", line=line.number)
            name = fields.get(t.kind, t.kind)
            if name in ("opened", "wrote", "synced", "reader", "stat", "flattened", "listed", "truncated", "renamed", "recovered", "refused"):
                if t.verb != "refresh" or run.reader_at(t) is not None:
                    field(name, getattr(self, name), t, line=line.number)
            if t.kind == "wrote":
                field("stamped", self.stamped, t, line=line.number)
            if t.kind == "reader" and t.verb == "refresh" and run.reader_at(t) is not None:
                field("refreshed", self.refreshed, t, line=line.number)
        for n in range(len(run.rooms)):
            for w in self.writers(n, run.told, run.told):
                field("left", self.left, n, w)
                if any(t.kind == "closed" and run.writer_at(t) == w.id for t in run.told):
                    field("closed", self.closed, n, w)
                for o in run.openers(w.id):
                    own = run.own(o.actor, run.told)
                    if run.writing(own) == (w.id, True) and all(s.kind != "stopped" for s in own):
                        field("kept", self.kept, n, w)
            field("truncs", self.truncs, n)
            field("indices", self.indices, n)
            field("entries", self.entries, n)
        return found


# Stories


def orders(run):
    """The namings that lead from the names before to those after."""
    first, goal, found = Judge(run, [], {}).first_names(), [room.name for room in run.rooms], 0
    may = [t for t in run.told if t.verb == "rename" and t.kind in ["renamed", *BROKE] or t.verb == "open" and (t.kind in ["open", *BROKE] or (t.kind, t.fields) == ("refused", ("held",)))]
    must = {t.place for t in may if t.kind == "renamed"}
    waiting = [(first, [], [])]
    while waiting and found < STORIES:
        names, done, past = waiting.pop()
        used = {one.by.place for one in done}
        if names == goal and must <= used:
            found += 1
            yield done
        for t in may:
            if t.place in used or any(run.surely_before(t, one.by) for one in done) or any(p not in used and run.surely_before(run.told[p], t) for p in must):
                continue
            if t.verb == "open" and t.words[0] not in names and len(names) < len(goal):
                waiting.append(([*names, t.words[0]], [*done, Naming(t, len(names), t.words[0])], [*past, names]))
            elif t.verb == "rename" and t.words[1] not in names:
                for k in sorted({was.index(t.words[0]) for was in [*past, names] if t.words[0] in was}):
                    waiting.append(([*names[:k], t.words[1], *names[k + 1 :]], [*done, Naming(t, k, t.words[1])], [*past, names]))


def stories(run):
    for namings in orders(run):
        judge, places, choices = Judge(run, namings, {}), [], []
        for t in run.told:
            if t.verb not in NAMING:
                continue
            may = list(dict.fromkeys(k for names in judge.may_stand(t) for k, name in enumerate(names) if name == t.words[0]))
            if t.kind == "open":
                may = [n for n in may if index(run.actors[t.actor].host, t.fields) in run.rooms[n].files]
            if t.kind == "truncated":
                may = [n for n in may if truncate(Truncate(t.fields, int(t.words[1]))) in run.rooms[n].files]
            may = [one.number for one in namings if one.by is t] or may
            places.append(t.place)
            choices.append(may or [-1])
        for picked in itertools.islice(itertools.product(*choices), STORIES):
            yield namings, dict(zip(places, picked))


def fewest(lists, none):
    """No complaint where one of these lists has none; else the shortest list, and this one complaint where there is no list."""
    best = None
    for found in lists:
        if not found:
            return []
        if best is None or len(found) < len(best):
            best = found
    return [none] if best is None else best


def told_by(run):
    """No complaint where some story fits; else those of the story with the fewest."""
    found = (Judge(run, namings, of).complaints() for namings, of in itertools.islice(stories(run), STORIES))
    return fewest(found, "names: no story leads from the names before to those after")


def numberings(before, after, renames):
    """The rooms before and after in orders that may be those of their numbers: no room is removed, and new ones come behind."""
    old = [room.name for room in before]
    if not renames:
        by_name = {room.name: room for room in after}
        new = [room for room in after if room.name not in old and room.name != MARKS]
        marks = [by_name[MARKS]] if MARKS not in old and MARKS in by_name else []
        stay = [by_name[name] for name in old if name in by_name] + marks
        yield from ([*stay, *order] for order in itertools.permutations(new))
        return
    for order in itertools.permutations(after):
        marks = old.index(MARKS) if MARKS in old else len(old)
        if marks < len(order) and order[marks].name == MARKS and all(set(indices_in(a)) <= set(indices_in(b)) for a, b in zip(before, order)):
            yield list(order)


def judged(script, lines, before, after, way):
    """What of the page doesn't hold of a run: of its script and lines as texts, its rooms before and after, and `play` or `run`."""
    whole, told = script_of(script), lines_of(lines)
    in_order = way == "play" and not whole[2]
    renames = any(s.verb == "rename" for s in whole[1])
    found = (told_by(Run(whole, told, before, rooms, in_order)) for rooms in itertools.islice(numberings(before, after, renames), ORDERS))
    return fewest(found, "numbered: the containers after are not those before with further ones")


def main(words):
    if len(words) not in (4, 5):
        print(__doc__)
        return 2
    script, lines, before, after = (Path(word) for word in words[:4])
    found = judged(script.read_text(), lines.read_text(), tree_of(before), tree_of(after), words[4] if len(words) == 5 else "run")
    for complaint in found:
        print(complaint)
    return min(len(found), 99)


if __name__ == "__main__":
    sys.exit(main(sys.argv[1:]))
