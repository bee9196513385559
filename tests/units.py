"""Small files of a container, read by hand: the grammar of units, written from docs/FORMATS.md alone.

What it reads is what `map` tells and the logs that lie on the disk. It asks the program for nothing else."""

import re
from bisect import bisect_right
from collections import namedtuple

REGION, REGIONS = 2**32, 256
NAME_BYTES, CONTENT_BYTES = 64, 2**20
NAME = re.compile(rb"[A-Za-z0-9_][A-Za-z0-9_.-]*")

# A run of bytes that one write shows: its key is the write's stamp and writer.
Piece = namedtuple("Piece", "at length key log place")
Unit = namedtuple("Unit", "name length key region at")


class Bad(Exception):
    """A unit that breaks a rule, by the place of its first byte."""

    def __init__(self, place):
        super().__init__(f"a bad unit at {place}")
        self.place = place


def unit(name, content):
    """The bytes of a small file."""
    return len(name).to_bytes(8, "little") + len(content).to_bytes(8, "little") + name + content


class View:
    """The file of a container, by its size, the line of `map` and the logs that this names."""

    def __init__(self, container, size, line):
        logs = {int(path.name.split(".")[2]): path for path in container.glob("hostdir.*/log.*")}
        self.pieces = []
        for it in re.findall(r"(\d+)\+(\d+)=(\d+)\.(\d+)@(\d+)", line):
            at, length, stamp, writer, place = map(int, it)
            self.pieces.append(Piece(at, length, (stamp, writer), logs[writer], place))
        self.begins = [it.at for it in self.pieces]
        self.size, self.files = size, {}

    def key(self, place):
        """The key of the piece that has this place, which is that of no piece where none has it."""
        number = bisect_right(self.begins, place) - 1
        if number >= 0 and place < self.pieces[number].at + self.pieces[number].length:
            return self.pieces[number].key
        return 0, 0

    def bytes(self, begin, length):
        """The bytes from there on: zeros where no piece has them."""
        found = bytearray(length)
        number = max(bisect_right(self.begins, begin) - 1, 0)
        for it in self.pieces[number:]:
            first, last = max(begin, it.at), min(begin + length, it.at + it.length)
            if it.at >= begin + length:
                break
            if first < last:
                if it.log not in self.files:
                    self.files[it.log] = open(it.log, "rb")
                log = self.files[it.log]
                log.seek(it.place + first - it.at)
                found[first - begin : last - begin] = log.read(last - first)
        return bytes(found)

    def close(self):
        for log in self.files.values():
            log.close()

    def number(self, place):
        return int.from_bytes(self.bytes(place, 8), "little")

    def region(self, region):
        """The units of a region, and where they end."""
        place, stop, units = region * REGION, (region + 1) * REGION, []
        while place < self.size and stop - place >= 8 and self.number(place):
            names, contents = self.number(place), self.number(place + 8)
            end = place + 16 + names + contents
            name = self.bytes(place + 16, names) if names <= NAME_BYTES else b""
            if not NAME.fullmatch(name) or contents > CONTENT_BYTES or end > min(stop, self.size):
                raise Bad(place)
            units.append(Unit(name, contents, self.key(place), region, place))
            place = end
        return units, place

    def content(self, one):
        return self.bytes(one.at + 16 + len(one.name), one.length)

    def files_of(self):
        """The small files by name: of several units of one name the one with the greatest key, region and place."""
        units = [it for region in range(REGIONS) for it in self.region(region)[0]]
        last = {it.name: it for it in sorted(units, key=lambda it: (it.key, it.region, it.at))}
        return {name: self.content(it) for name, it in last.items()}
