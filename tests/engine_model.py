"""A model of the engine's answers: what each request is answered where nothing fails, by the pages docs/ENGINE.md and
crates/plain_machine alone."""

import bisect
import re
import struct
from collections import namedtuple

HEAD, ANSWER = struct.Struct("<6Q"), struct.Struct("<4Q")
OPEN, WRITE, SYNC, CLOSE, OPEN_READ, READ, REFRESH, PIECES, CLOSE_READ, STAT, TRUNC, RENAME, FLATTEN, RECOVER, LIST = range(1, 16)
MADE, REFUSED, NO_REQUEST = 0, 1, 2
NO_FILE, HELD, BUSY, EXISTS, TOO_FAR, STAMPS_SPENT, IDS_SPENT, NOT_OPEN, ALREADY_OPEN, MOUNTS_SPENT = range(1, 11)
ACTORS, LONGEST, GREATEST_SIZE, CAPACITY = 256, 2**24, 2**40, 64
STAMPED = WRITE, TRUNC

Change = namedtuple("Change", "stamp is_trunc writer at data")


class Strange(Exception):
    """A stamp that can't be."""


def is_name(name):
    return re.fullmatch(rb"(?![.-])[A-Za-z0-9_.-]{1,64}", name) is not None


def statement(kind, actor, place, extent, payload):
    """The arguments of the statement that these numbers and bytes ask for, or None where they are no request."""
    bare = not place and not extent and not payload
    allowed = {
        OPEN: not place and not extent and is_name(payload),
        WRITE: not extent and len(payload) <= LONGEST,
        OPEN_READ: 1 <= place <= 16 and not extent and is_name(payload),
        READ: extent <= LONGEST and not payload,
        TRUNC: not extent and is_name(payload),
        RENAME: not place and extent <= len(payload) and is_name(payload[:extent]) and is_name(payload[extent:]),
        **dict.fromkeys((STAT, FLATTEN, RECOVER), not place and not extent and is_name(payload)),
        **dict.fromkeys((SYNC, CLOSE, REFRESH, PIECES, CLOSE_READ, LIST), bare),
    }
    return actor < ACTORS and allowed.get(kind, False)


class Shown:
    """The file that changes make: its size, and the runs of bytes that one write shows, from (begin, end, data, place in it)."""

    def __init__(self, changes):
        self.size, self.begins, self.runs = 0, [], []
        for change in sorted(changes, key=lambda it: (it.stamp, it.is_trunc, it.writer, it.at)):
            if change.is_trunc:
                self.clear(change.at, max(self.size, change.at))
                self.size = change.at
            else:
                end = change.at + len(change.data)
                self.clear(change.at, end)
                self.put(change.at, end, change.data, 0)
                self.size = max(self.size, end)

    def put(self, begin, end, data, place):
        if begin < end:
            k = bisect.bisect_left(self.begins, begin)
            self.begins.insert(k, begin)
            self.runs.insert(k, (begin, end, data, place))

    def clear(self, begin, end):
        """Takes away what runs show from one place to another."""
        first = bisect.bisect_right(self.begins, begin) - 1
        first = first if first >= 0 and self.runs[first][1] > begin else first + 1
        last = bisect.bisect_left(self.begins, end)
        if last <= first or begin >= end:
            return
        left, right = self.runs[first], self.runs[last - 1]
        del self.begins[first:last], self.runs[first:last]
        self.put(left[0], min(left[1], begin), left[2], left[3])
        self.put(max(right[0], end), right[1], right[2], right[3] + max(0, end - right[0]))

    def read(self, at, length):
        end = min(at + length, self.size)
        found = bytearray(max(0, end - at))
        for k in range(max(0, bisect.bisect_right(self.begins, at) - 1), bisect.bisect_left(self.begins, end)):
            begin, stop, data, place = self.runs[k]
            low, high = max(begin, at), min(stop, end)
            if low < high:
                found[low - at : high - at] = data[place + low - begin : place + high - begin]
        return bytes(found)


class File:
    def __init__(self):
        self.landed, self.truncs, self.open, self.shown_of, self.shown = [], [], [], None, None

    def floor(self):
        return max([0, *(it.stamp for it in self.truncs)])

    def top(self):
        return max([self.floor(), *(it.stamp for it in self.landed)])

    def show(self):
        stand = len(self.landed), len(self.truncs)
        if stand != self.shown_of:
            self.shown_of, self.shown = stand, Shown([*self.landed, *self.truncs])
        return self.shown


class Writer:
    def __init__(self, file, number):
        self.file, self.number, self.floor = file, number, file.floor()
        self.last, self.issued, self.waiting = 0, 0, []

    def land(self):
        self.file.landed += self.waiting
        self.waiting = []


class Reader:
    def __init__(self, file):
        self.file, self.shown = file, file.show()


class Model:
    """The engine's state, on an empty folder. `mark` is that of its mount."""

    def __init__(self, mark=1):
        self.files, self.writers, self.readers, self.mark, self.serial = {}, {}, {}, mark, 0

    def draw(self):
        self.serial += 1
        return self.mark * 2**32 + self.serial

    def answer(self, kind, actor, place, extent, payload, stamp):
        """What the request is answered: status, value, bytes. A write or a truncate has this stamp, where it is made."""
        if not statement(kind, actor, place, extent, payload):
            return NO_REQUEST, 0, b""
        if kind in (WRITE, SYNC, CLOSE):
            return self.by_writer(kind, actor, place, payload, stamp)
        if kind in (READ, REFRESH, PIECES, CLOSE_READ):
            return self.by_reader(kind, actor, place, extent)
        if kind == OPEN:
            return self.open(actor, payload)
        if kind == LIST:
            return MADE, len(self.files), b"".join(name + b"\n" for name in sorted(self.files))
        if kind == OPEN_READ and actor in self.readers:
            return REFUSED, ALREADY_OPEN, b""
        name = payload[:extent] if kind == RENAME else payload
        if name not in self.files:
            return REFUSED, NO_FILE, b""
        return self.by_name(kind, actor, name, place, payload[extent:], stamp)

    def open(self, actor, name):
        if actor in self.writers:
            return REFUSED, ALREADY_OPEN, b""
        file = self.files.setdefault(name, File())
        self.writers[actor] = Writer(file, self.draw())
        file.open.append(actor)
        return MADE, self.writers[actor].number, b""

    def by_writer(self, kind, actor, place, payload, stamp):
        writer = self.writers.get(actor)
        if not writer:
            return REFUSED, NOT_OPEN, b""
        if kind == WRITE:
            return self.write(writer, place, payload, stamp)
        writer.land()
        if kind == CLOSE:
            writer.file.open.remove(actor)
            del self.writers[actor]
        return MADE, writer.issued, b""

    def write(self, writer, place, payload, stamp):
        if not payload:
            return MADE, 0, b""
        if len(writer.waiting) >= CAPACITY:
            writer.land()
        if place + len(payload) > GREATEST_SIZE:
            return REFUSED, TOO_FAR, b""
        if not max(writer.last, writer.floor) < stamp < 2**63:
            raise Strange(f"the stamp {stamp} behind {writer.last} and {writer.floor}")
        writer.waiting.append(Change(stamp, False, writer.number, place, payload))
        writer.last, writer.issued = stamp, writer.issued + 1
        return MADE, stamp, b""

    def by_reader(self, kind, actor, place, extent):
        reader = self.readers.get(actor)
        if not reader:
            return REFUSED, NOT_OPEN, b""
        if kind == READ:
            found = reader.shown.read(place, extent)
            return MADE, len(found), found
        if kind == PIECES:
            return MADE, len(reader.shown.runs), b""
        if kind == CLOSE_READ:
            del self.readers[actor]
            return MADE, 0, b""
        self.readers[actor] = Reader(reader.file)
        return MADE, self.readers[actor].shown.size, b""

    def by_name(self, kind, actor, name, place, to, stamp):
        file = self.files[name]
        if kind == OPEN_READ:
            self.readers[actor] = Reader(file)
            return MADE, file.show().size, b""
        if kind == STAT:
            return MADE, file.show().size, b""
        if kind == FLATTEN:
            return MADE, self.draw(), b""
        if kind == RECOVER:
            return MADE, 0, b""
        self.draw()
        if file.open:
            return REFUSED, BUSY, b""
        if kind == RENAME:
            if to in self.files:
                return REFUSED, EXISTS, b""
            self.files[to] = self.files.pop(name)
            return MADE, 0, b""
        if place > GREATEST_SIZE:
            return REFUSED, TOO_FAR, b""
        if not file.top() < stamp < 2**63:
            raise Strange(f"the stamp {stamp} of a truncate behind {file.top()}")
        file.truncs.append(Change(stamp, True, 0, place, b""))
        return MADE, stamp, b""
