"""A container of small files as it lies on the disk, and the answers that it gives: what tests/small_model.py judges by.

It reads the entries of all index droppings, the logs and the names of the truncates, and nothing else. The file is made
byte by byte, in the order of the changes. What small files it has is written from the rules of units, region by region."""

import string
import struct
from collections import namedtuple

from trial import Wrong

# The grammar's numbers.
WIDTH, COUNT = 1 << 32, 256
LONGEST_NAME, LONGEST_CONTENT, LONGEST_INPUT = 64, 1 << 20, 1 << 20
LETTERS = set((string.ascii_letters + string.digits + "_.-").encode())
HEX = set(b"0123456789abcdef")
GREATEST_STAMP, LATEST = (1 << 63) - 1, 1 << 62
LAST_MARK = (1 << 32) - 1

Put = namedtuple("Put", "at data stamp")
Small = namedtuple("Small", "name content key region place")
Entry = namedtuple("Entry", "at length physical stamp writer")
Answer = namedtuple("Answer", "status out")


class Told(Exception):
    """What ends a command before it has done its work: its line, without the number."""

    def __init__(self, line, status):
        super().__init__(line)
        self.answer = Answer(status, f"0 {line}\n".encode())


def need(fact, what):
    if not fact:
        raise Wrong(what)


# ---- small files as bytes


def is_name(name):
    return 1 <= len(name) <= LONGEST_NAME and set(name) <= LETTERS and name[:1] not in (b".", b"-")


def spelled(name, content):
    return struct.pack("<QQ", len(name), len(content)) + name + content


def input_fault(text):
    """The line and the kind of the input's first fault, or None; and the files that its lines say."""
    if len(text) > LONGEST_INPUT:
        return (0, "long"), []
    rows = text.split(b"\n")
    if not rows[-1]:
        rows.pop()
    files = []
    for number, row in enumerate(rows, 1):
        words = row.split(b" ")
        if b"" in words:
            return (number, "spaces"), []
        if len(words) != 2:
            return (number, "count"), []
        if not is_name(words[0]):
            return (number, "name"), []
        digits = b"" if words[1] == b"-" else words[1]
        if len(digits) % 2 or not set(digits) <= HEX:
            return (number, "data"), []
        files.append((words[0], bytes.fromhex(digits.decode())))
    return None, files


# ---- a container as it lies on the disk


def item_numbers(name, many):
    """The numbers of a name that is so many numbers with dots between them, or None where it is no such name."""
    parts = name.split(".")
    if len(parts) != many or any(not it.isdecimal() or (it[0] == "0" and it != "0") for it in parts):
        return None
    return [int(it) for it in parts]


class Disk:
    """What lies in the folder of a container, and the file that it makes."""

    def __init__(self, folder):
        self.folder = folder
        self.writers, self.truncs = {}, []
        for path in sorted(folder.glob("hostdir.*/index.*")):
            host, writer = item_numbers(path.name.removeprefix("index."), 2)
            log = path.with_name(f"log.{host}.{writer}")
            self.writers[writer] = self.entries(path.read_bytes(), log.read_bytes() if log.exists() else b"", writer)
        for path in (folder / "truncs").iterdir():
            self.truncs.append(tuple(item_numbers(path.name, 2)))
        self.is_held = not (folder / "openhosts").is_dir()
        self.bytes, self.keys, self.size = {}, {}, 0
        self.build()

    @staticmethod
    def entries(index, log, writer):
        """The whole entries that end within the log, each with its bytes."""
        found, stored, last = [], 0, 0
        for place in range(0, len(index) - 39, 40):
            one = Entry(*struct.unpack_from("<5Q", index, place))
            need(one.writer == writer and one.physical == stored and one.stamp > last and one.length, f"the entry {one} of {writer} is wrong")
            stored, last = stored + one.length, one.stamp
            if stored > len(log):
                break
            found.append(Put(one.at, log[one.physical : stored], one.stamp))
        return found

    def build(self):
        changes = [(it.stamp, 0, writer, it) for writer, puts in self.writers.items() for it in puts]
        changes += [(stamp, 1, size, None) for stamp, size in self.truncs]
        for stamp, is_trunc, which, put in sorted(changes, key=lambda it: it[:3]):
            if is_trunc:
                for place in [it for it in self.bytes if it >= which]:
                    del self.bytes[place], self.keys[place]
                self.size = which
            else:
                for place, byte in enumerate(put.data, put.at):
                    self.bytes[place], self.keys[place] = byte, (stamp, which)
                self.size = max(self.size, put.at + len(put.data))

    def part(self, begin, length):
        return bytes(self.bytes.get(place, 0) for place in range(begin, begin + length))

    def units(self, region):
        """The small files of a region, and the place behind the last one."""
        place, stop, found = region * WIDTH, (region + 1) * WIDTH, []
        while place < self.size and place + 8 <= stop:
            (names,) = struct.unpack("<Q", self.part(place, 8))
            if not names:
                break
            (contents,) = struct.unpack("<Q", self.part(place + 8, 8))
            end = place + 16 + names + contents
            # The name is read only where it can be one: a wrong number may be any.
            if names > LONGEST_NAME or contents > LONGEST_CONTENT or end > min(stop, self.size) or not is_name(self.part(place + 16, names)):
                raise Told(f"damaged view {place}", 7)
            name, content = self.part(place + 16, names), self.part(place + 16 + names, contents)
            found.append(Small(name, content, self.keys[place], region, place))
            place = end
        return found, place

    def small_files(self):
        """The content of each name: of several units that of the greatest key, then region, then place."""
        counts = {}
        # A region without bytes has none, whatever the size.
        for region in sorted({place // WIDTH for place in self.bytes}):
            for it in self.units(region)[0]:
                order = (it.key, it.region, it.place)
                if it.name not in counts or counts[it.name][0] < order:
                    counts[it.name] = order, it.content
        return {name: content for name, (_, content) in counts.items()}
