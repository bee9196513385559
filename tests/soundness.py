"""Whether a folder is sound, judged by the page docs/FORMATS.md alone: what may be complained of each container, and of each
of its items. It knows nothing of the program; small files and few entries are enough for it."""

import os
import pathlib
import re

MAX_SIZE, MAX_LOG, MAX_STAMP = 2**40, 2**56, 2**63 - 1
ENTRY = 40
FOLDERS = {"openhosts", "metadata", "truncs", "flats", *(f"hostdir.{number}" for number in range(32))}
NEEDED = ("metadata", "truncs", "flats")
LOGICAL = re.compile(rb"[A-Za-z0-9_][A-Za-z0-9_.-]{0,63}\Z")
# A longer name is none that a listing can tell.
MAX_NAME = 96
# So many bytes of a file are looked at: of a longer one the judge knows only how long it is.
MOST = 2**22


class Failed(Exception):
    """A folder stands in a file's place, or the like: the program's look at it is a fault."""


def number(text):
    """The number that a text spells, or None."""
    return int(text) if re.fullmatch(r"0|[1-9][0-9]*", text) else None


def numbers(text, count):
    """So many numbers with dots between, or None."""
    parts = [number(part) for part in text.split(".")]
    return parts if len(parts) == count and None not in parts else None


def items_of(folder, name):
    """What a file is by its folder and its name: its kind, and its numbers. None where it is no item."""
    host_is = lambda host: host < 2**32 and folder == f"hostdir.{host % 32}"
    if folder == "":
        return ("access",) if name == "access" else None
    if folder == "openhosts":
        found = numbers(name, 2)
        return ("open", *found) if found and found[0] < 2**32 and found[1] < 2**64 else None
    if folder == "metadata":
        found = numbers(name, 5)
        if not found:
            return None
        last, size, stamp, host, writer = found
        is_all = (last, size, stamp) == (0, 0, 0) or min(last, size, stamp) > 0
        fits = last <= MAX_SIZE and size <= MAX_LOG and stamp <= MAX_STAMP and host < 2**32 and writer < 2**64
        return ("meta", *found) if is_all and fits else None
    if folder == "truncs":
        found = numbers(name, 2)
        return ("trunc", *found) if found and 1 <= found[0] <= MAX_STAMP and found[1] <= MAX_SIZE else None
    if folder == "flats":
        kind, text = ("flat", name) if not name.startswith("tmp.") else ("tmp", name[4:])
        found = numbers(text, 1)
        return (kind, *found) if found and found[0] < 2**64 else None
    word, _, text = name.partition(".")
    found = numbers(text, 2)
    kinds = {"index": "index", "log": "log", "index2": "pack", "tmp2": "tmp"}
    if word not in kinds or not found or not host_is(found[0]) or found[1] >= 2**64:
        return None
    return (kinds[word], found[1]) if word == "tmp2" else (kinds[word], *found)


def is_told(name):
    """Whether a listing can tell the name: one in UTF-8 that isn't too long. At another one the listing fails."""
    told = os.fsencode(name)
    try:
        told.decode("utf-8")
    except UnicodeDecodeError:
        return False
    return len(told) <= MAX_NAME


def is_plain(path):
    """Whether it is a file that can be opened, as each is whose length is asked."""
    return path.is_file() and not path.is_symlink() and os.access(path, os.R_OK | os.W_OK)


def bytes_of(path):
    """The first bytes of a file."""
    with open(path, "rb") as file:
        return file.read(MOST)


def id_of(item):
    """The id in an item's name, or None."""
    return {"open": -1, "meta": -1, "index": -1, "log": -1, "pack": -1, "flat": 1, "tmp": 1}.get(item[0]) and item[{"flat": 1, "tmp": 1}.get(item[0], -1)]


def entries_of(data):
    """The whole entries of an index dropping, each as offset, length, place in the log, stamp and writer."""
    return [tuple(int.from_bytes(data[at + 8 * k : at + 8 * k + 8], "little") for k in range(5)) for at in range(0, len(data) // ENTRY * ENTRY, ENTRY)]


def spelled(values):
    return b"".join(value.to_bytes(8, "little") for value in values)


def first_misfit(entries, writer):
    """What is wrong of a writer's entries: the first that doesn't follow, or that all are too long for a log."""
    last, logged = 0, 0
    for place, (at, length, physical, stamp, whose) in enumerate(entries):
        if not (length >= 1 and at + length <= MAX_SIZE and whose == writer and last < stamp <= MAX_STAMP and physical == logged):
            return ("entry", str(ENTRY * place))
        if logged + length > MAX_LOG:
            return ("long-log", "-")
        last, logged = stamp, logged + length
    return None


def landed_of(entries, size):
    """The first entries, up to one that ends beyond the log."""
    landed = []
    for entry in entries:
        if entry[2] + entry[1] > size:
            break
        landed.append(entry)
    return landed


def pieces_of(entries):
    """The pieces of what many writers wrote: at each byte the newest write, by stamp and writer."""
    newest = {}
    for entry in entries:
        for byte in range(entry[1]):
            key = (entry[3], entry[4])
            if newest.get(entry[0] + byte, ((0, 0), 0))[0] < key:
                newest[entry[0] + byte] = (key, entry[2] + byte)
    pieces = []
    for at in sorted(newest):
        key, physical = newest[at]
        if pieces and pieces[-1][0] + pieces[-1][1] == at and pieces[-1][3:] == key and pieces[-1][2] + pieces[-1][1] == physical:
            pieces[-1] = (pieces[-1][0], pieces[-1][1] + 1, *pieces[-1][2:])
        else:
            pieces.append((at, 1, physical, *key))
    return pieces


def packed(entries):
    """The packed index of these entries, or None where they are none or too many."""
    if not 1 <= len(entries) <= 2**20:
        return None
    runs, place = [], 0
    while place < len(entries):
        at, length, physical, stamp, writer = entries[place]
        count, stride, step = 1, 0, 0
        if place + 1 < len(entries) and entries[place + 1][1] == length and entries[place + 1][0] >= at:
            stride, step = entries[place + 1][0] - at, entries[place + 1][3] - stamp
            while place + count < len(entries) and (entries[place + count][0], entries[place + count][1], entries[place + count][3]) == (at + count * stride, length, stamp + count * step):
                count += 1
        runs.append((at, stride, length, count, physical, stamp, step, writer))
        place += count
    return b"PLFSIDX2" + spelled([len(entries), len(runs)]) + b"".join(map(spelled, runs))


class Container:
    """What lies in one container, and what may be complained of it."""

    def __init__(self, path, marks):
        self.path, self.name, self.marks = path, path.name, marks
        self.shape, self.items, self.files, self.sizes = [], [], {}, {}
        self.fails = False

    def data(self, folder, name):
        return self.files.get((folder, name), b"")

    def complain(self, kind, item="-", place="-"):
        return (kind, self.name, str(item), str(place))

    def look(self):
        """Fills in what is complained of its shape, and of each item."""
        self.fails |= not all(is_told(name) for name in os.listdir(self.path))
        for entry in sorted(self.path.iterdir(), key=lambda it: os.fsencode(it.name)):
            if entry.is_dir() and not entry.is_symlink():
                self.look_into(entry)
            else:
                self.add_file("", entry)
        for folder in NEEDED:
            if not (self.path / folder).is_dir():
                self.shape.append(self.complain("no-folder", folder))
        if ("", "access") not in self.files:
            self.shape.append(self.complain("no-access", "access"))
        self.judge_owners()
        if not self.shape:
            for folder, name in sorted(self.files, key=lambda it: (os.fsencode(it[0]), os.fsencode(it[1]))):
                if folder:
                    self.items.append(self.judge_item(folder, name))

    def look_into(self, folder):
        self.fails |= not all(is_told(name) for name in os.listdir(folder))
        if folder.name not in FOLDERS:
            self.shape.append(self.complain("foreign-folder", escaped(folder.name)))
            return
        for entry in folder.iterdir():
            self.add_file(folder.name, entry)

    def add_file(self, folder, entry):
        """Takes a file down. At what is no plain file that may be read and written a look fails."""
        if not is_plain(entry):
            self.fails = True
            return
        self.files[folder, entry.name] = bytes_of(entry)
        self.sizes[folder, entry.name] = entry.stat().st_size
        self.judge_file(folder, entry.name)

    def judge_file(self, folder, name):
        item, place = items_of(folder, name), path_of(folder, name)
        if item is None:
            self.shape.append(self.complain("foreign", place))
            return
        if self.files[folder, name] and item[0] in ("access", "open", "meta", "trunc"):
            self.shape.append(self.complain("filled", place))
        drawn = id_of(item)
        if drawn is not None and not (drawn % 2**32 >= 1 and drawn // 2**32 in self.marks):
            self.shape.append(self.complain("unmarked", place))

    def draws_of(self, names):
        """Whether an id is of one of these marks, at which a look fails."""
        items = [items_of(*path) for path in self.files]
        return any(item and id_of(item) is not None and str(id_of(item) // 2**32) in names for item in items)

    def all_items(self, *kinds):
        for folder, name in self.files:
            item = items_of(folder, name)
            if item and item[0] in kinds:
                yield item

    def judge_owners(self):
        self.owners = {}
        for item in self.all_items("open", "index", "meta"):
            host, writer = item[-2:]
            if self.owners.setdefault(writer, host) != host:
                self.shape.append(self.complain("two-hosts", str(writer)))
        sizes = {}
        for _, stamp, size in self.all_items("trunc"):
            if sizes.setdefault(stamp, size) != size:
                self.shape.append(self.complain("two-truncates", "truncs", stamp))

    def dropping(self, host, writer):
        """A writer's index dropping: its path, its length, its entries, those that have landed, and what is wrong of it."""
        folder = f"hostdir.{host % 32}"
        index = self.data(folder, f"index.{host}.{writer}")
        entries = entries_of(index)
        wrong = first_misfit(entries, writer)
        landed = landed_of(entries, self.sizes.get((folder, f"log.{host}.{writer}"), 0))
        return f"{folder}/index.{host}.{writer}", self.sizes.get((folder, f"index.{host}.{writer}"), 0), landed, wrong

    def beside(self, place, landed):
        """A complaint for each truncate that is between two of the entries, or has the stamp of one."""
        return {self.complain("between", place, stamp) for _, stamp, _ in self.all_items("trunc") if landed and landed[0][3] <= stamp <= landed[-1][3]}

    def judge_item(self, folder, name):
        """What may be complained of one item; nothing where it is right."""
        item = items_of(folder, name)
        judges = {"index": self.judge_index, "meta": self.judge_meta, "pack": self.judge_pack, "flat": self.judge_flat}
        return judges[item[0]](folder, name, *item[1:]) if item[0] in judges else set()

    def judge_index(self, folder, name, host, writer):
        if any(item[-1] == writer for item in self.all_items("meta")):
            return set()
        place, _, landed, wrong = self.dropping(host, writer)
        if wrong:
            return {self.complain(wrong[0], place, wrong[1])}
        open_here = ("openhosts", f"{host}.{writer}") in self.files
        return self.beside(place, landed) | ({self.complain("unaccounted", place)} if landed and not open_here else set())

    def judge_meta(self, folder, name, last, size, stamp, host, writer):
        place, length, landed, wrong = self.dropping(host, writer)
        if wrong:
            return {self.complain(wrong[0], place, wrong[1])}
        found = self.beside(place, landed)
        told = (max((it[0] + it[1] for it in landed), default=0), sum(it[1] for it in landed), landed[-1][3] if landed else 0)
        if told != (last, size, stamp):
            found.add(self.complain("untrue", path_of(folder, name)))
        if length != ENTRY * len(landed):
            found.add(self.complain("unsettled", place))
        return found

    def judge_pack(self, folder, name, host, writer):
        here = self.complain("wrong-index", path_of(folder, name))
        left = any(item[-2:] == (host, writer) for item in self.all_items("meta"))
        if not left or (folder, f"index.{host}.{writer}") not in self.files:
            return {here}
        place, _, landed, wrong = self.dropping(host, writer)
        if wrong:
            return {here, self.complain(wrong[0], place, wrong[1])}
        return set() if packed(landed) == self.files[folder, name] else {here}

    def judge_flat(self, folder, name, flat):
        data, here = self.files[folder, name], {self.complain("wrong-index", path_of(folder, name))}
        if len(data) < 24 or data[:8] != b"PLFSFLT1":
            return here
        count = int.from_bytes(data[8:16], "little")
        if len(data) < 24 + 32 * count:
            return here
        covers = [tuple(int.from_bytes(data[24 + 32 * k + 8 * j : 32 + 32 * k + 8 * j], "little") for j in range(4)) for k in range(count)]
        covered, wrongs = [], set()
        for before, (writer, entries, size, stamp) in zip([(-1, 0, 0, 0), *covers], covers):
            host = self.owners.get(writer)
            if writer <= before[0] or entries < 1 or host is None or (f"hostdir.{host % 32}", f"index.{host}.{writer}") not in self.files:
                return here | wrongs
            place, _, landed, wrong = self.dropping(host, writer)
            if wrong:
                wrongs.add(self.complain(wrong[0], place, wrong[1]))
                return here | wrongs
            first = landed[:entries]
            if len(first) < entries or (sum(it[1] for it in first), first[-1][3]) != (size, stamp):
                return here | wrongs
            covered += first
        pieces = pieces_of(covered)
        wanted = data[:8] + spelled([count, len(pieces)]) + b"".join(map(spelled, covers)) + b"".join(map(spelled, pieces))
        return set() if wanted == data else here


def escaped(name):
    keep = b"ABCDEFGHIJKLMNOPQRSTUVWXYZabcdefghijklmnopqrstuvwxyz0123456789_-."
    return "".join(chr(byte) if byte in keep else f"%{byte:02X}" for byte in os.fsencode(name))


def path_of(folder, name):
    return f"{escaped(folder)}/{escaped(name)}" if folder else escaped(name)


def marks_of(path):
    """The numbers of the marks, what is complained of their room, and the names of its entries at which a look fails."""
    complaints, marks, fails = [], set(), set()
    for entry in path.iterdir():
        if entry.is_symlink() or not (entry.is_dir() or entry.is_file()) or not is_told(entry.name):
            fails.add(entry.name)
        elif entry.is_dir() and entry.name != "mounts":
            complaints.append(("foreign-folder", ".plfs", escaped(entry.name), "-"))
            fails |= {name for name in os.listdir(entry) if not is_told(name)}
        elif not entry.is_dir() and not is_plain(entry):
            fails.add(entry.name)
        elif entry.is_file():
            complaints.append(("no-mark", ".plfs", escaped(entry.name), "-"))
    if not (path / "mounts").is_dir():
        return marks, [*complaints, ("no-folder", ".plfs", "mounts", "-")], fails
    for entry in (path / "mounts").iterdir():
        if not is_plain(entry) or not is_told(entry.name):
            fails.add(entry.name)
        elif entry.stat().st_size or not 1 <= (number(entry.name) or 0) < 2**32:
            complaints.append(("no-mark", ".plfs", f"mounts/{escaped(entry.name)}", "-"))
        else:
            marks.add(int(entry.name))
    return marks, complaints, fails


def judged(root):
    """Of each room, by its name in byte order: what may be complained of its shape, and of each of its items in order; and the rooms at which a look fails."""
    root, rooms, fails = pathlib.Path(root), {}, set()
    marks, failed = set(), set()
    if (root / ".plfs").is_dir():
        marks, complaints, failed = marks_of(root / ".plfs")
        rooms[".plfs"] = (complaints, [])
        if failed:
            fails.add(".plfs")
    for path in root.iterdir():
        if path.is_dir() and not path.is_symlink() and LOGICAL.match(os.fsencode(path.name)):
            container = Container(path, marks)
            container.look()
            rooms[path.name] = (container.shape, container.items)
            if container.fails or container.draws_of(failed):
                fails.add(path.name)
    return dict(sorted(rooms.items(), key=lambda it: os.fsencode(it[0]))), fails


def is_sound(root):
    rooms, fails = judged(root)
    return not fails and not any(shape or any(items) for shape, items in rooms.values())


def disagreement(root, status, text):
    """Why the program's verdict isn't that of the page, or an empty text."""
    rooms, fails = judged(root)
    lines = text.splitlines()
    if is_sound(root):
        return "" if (status, text) == (0, "sound\n") else "the folder is sound"
    failed = bool(lines) and lines[-1] == "0 fault"
    told = [tuple(line.split(" ")[1:]) for line in lines[: len(lines) - failed]]
    if any(not line.startswith("broken ") or len(line.split(" ")) != 5 for line in lines[: len(lines) - failed]):
        return "a line is of no such form"
    if (status, failed) not in ((7, False), (4, True)):
        return "status and last line don't go together"
    silent = [name for name in rooms if name in fails and not any(complaint[1] == name for complaint in told)]
    if failed and not silent or not failed and silent:
        return "a look fails, or none does"
    names = [complaint[1] for complaint in told]
    if names != sorted(names, key=str.encode):
        return "the rooms are out of order"
    for name, (shape, items) in rooms.items():
        here = [complaint for complaint in told if complaint[1] == name]
        if failed and name.encode() >= silent[0].encode():
            if here:
                return f"lines of {name} come behind a fault"
            continue
        wrong = [item for item in items if item]
        # Where a look at a container fails, it isn't made once its shape is complained of.
        if shape or name in fails:
            if len(here) != 1 or here[0] not in shape:
                return f"{name} has other complaints: {shape}"
        elif len(here) != len(wrong) or any(complaint not in item for complaint, item in zip(here, wrong)):
            return f"{name} has other complaints: {wrong}"
    return ""
