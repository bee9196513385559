"""Damages of a good folder of containers, each by chance, and what lies below a folder beside its bytes."""

import os
import pathlib
import shutil
import stat

from soundness import spelled


def is_small(path):
    """Whether it is a plain file that may be read whole."""
    told = os.lstat(path)
    return stat.S_ISREG(told.st_mode) and told.st_size < 2**22


def files_below(root, *starts):
    """The small files whose paths in their container begin so, in order."""
    found = []
    for at, _, names in os.walk(root):
        for name in names:
            path = pathlib.Path(at, name)
            inner = "/".join(path.relative_to(root).parts[1:])
            if is_small(path) and (not starts or inner.startswith(starts)):
                found.append(path)
    return sorted(found)


def one_of(chance, root, *starts):
    return chance.choice(files_below(root, *starts))


def change_byte(chance, root):
    """Another value for a byte of an index, or of a flattened or packed one."""
    path = one_of(chance, root, "hostdir.", "flats")
    data = bytearray(path.read_bytes())
    if data:
        place = chance.randrange(len(data))
        data[place] ^= chance.randrange(1, 256)
        path.write_bytes(data)


def change_number(chance, root):
    """Another number in an entry of an index."""
    path = one_of(chance, root, "hostdir.1/index.", "hostdir.2/index.", "hostdir.0/index.", "hostdir.7/index.")
    data = bytearray(path.read_bytes())
    if len(data) >= 40:
        place = 8 * chance.randrange(len(data) // 8)
        number = int.from_bytes(data[place : place + 8], "little") + chance.choice((-1, 1, 40, 2**40, 2**63))
        data[place : place + 8] = spelled([number % 2**64])
        path.write_bytes(data)


def cut_file(chance, root):
    path = one_of(chance, root, "hostdir.", "flats")
    size = path.stat().st_size
    if size:
        os.truncate(path, chance.randrange(size))


def lengthen_file(chance, root):
    path = one_of(chance, root)
    with open(path, "ab") as file:
        file.write(chance.randbytes(chance.choice((1, 17, 40, 80))))


def remove_file(chance, root):
    one_of(chance, root).unlink()


def add_file(chance, root):
    """A file of any name, or one that may be an item's."""
    folders = [path for path in root.glob("*/*") if path.is_dir()] + [path for path in root.iterdir() if path.is_dir()]
    writer = chance.choice((4294967297, 4294967298, 8589934593, 99 * 2**32 + 1, 2**32))
    host = chance.choice((0, 1, 2, 7, 34))
    names = ("dog", "6 0", "ä", f"{host}.{writer}", f"{writer}", f"tmp.{writer}", f"index.{host}.{writer}", f"log.{host}.{writer}", f"index2.{host}.{writer}", f"tmp2.{host}.{writer}",
             f"10.10.5.{host}.{writer}", f"0.0.0.{host}.{writer}", "5.0", "7.0", "07", "access", "12")
    path = chance.choice(folders) / chance.choice(names)
    if not path.exists():
        path.write_bytes(chance.choice((b"", b"", b"x", bytes(40))))


def rename_file(chance, root):
    path = one_of(chance, root, "metadata", "truncs", "openhosts", "hostdir.")
    parts = path.name.split(".")
    place = chance.randrange(len(parts))
    parts[place] = str(int(parts[place]) + chance.choice((1, 2, 32))) if parts[place].isdigit() else chance.choice(("log", "index", "index2", "x"))
    to = path.with_name(".".join(parts))
    if not to.exists():
        path.rename(to)


def truncate_at_an_entry(chance, root):
    """A truncate with the stamp of an entry, beside it, or of another truncate."""
    path = one_of(chance, root, "hostdir.1/index.", "hostdir.2/index.", "hostdir.0/index.", "hostdir.7/index.")
    data = path.read_bytes()
    if len(data) >= 40:
        place = 40 * chance.randrange(len(data) // 40) + 24
        stamp = int.from_bytes(data[place : place + 8], "little") + chance.choice((-1, 0, 1))
        (path.parent.parent / "truncs" / f"{stamp}.{chance.randrange(30)}").touch()


def second_truncate(chance, root):
    path = one_of(chance, root, "truncs")
    stamp, _, size = path.name.partition(".")
    if size.isdigit():
        path.with_name(f"{stamp}.{int(size) + 1}").touch()


def remove_folder(chance, root):
    shutil.rmtree(chance.choice([path for path in root.glob("*/*") if path.is_dir()]))


def add_folder(chance, root):
    room = chance.choice([path for path in root.iterdir() if path.is_dir()])
    (room / chance.choice(("hostdir.32", "hostdir.31", "hostdir.01", "more", "a b", "mounts", "metadata"))).mkdir(exist_ok=True)


def folder_in_a_files_place(chance, root):
    path = one_of(chance, root)
    path.unlink()
    path.mkdir()


def file_in_a_folders_place(chance, root):
    path = chance.choice([path for path in root.glob("*/*") if path.is_dir()])
    shutil.rmtree(path)
    path.touch()


def remove_mark(chance, root):
    one_of(chance, root / ".plfs", "").unlink()


def add_container(chance, root):
    """A folder that is none of a container, or a copy of one under another name."""
    name = root / chance.choice(("i", "j.k", "a b", ".new.0"))
    if chance.random() < 0.5:
        name.mkdir(exist_ok=True)
    elif not name.exists():
        shutil.copytree(root / "f", name, ignore=lambda at, names: [it for it in names if not os.path.isdir(os.path.join(at, it)) and not is_small(os.path.join(at, it))])


def swap_files(chance, root):
    first, other = one_of(chance, root, "hostdir."), one_of(chance, root, "hostdir.", "flats")
    data = first.read_bytes()
    first.write_bytes(other.read_bytes())
    other.write_bytes(data)


def one_entry_more(chance, root):
    """An entry more, right by itself, whose bytes are in the log or aren't."""
    path = one_of(chance, root, "hostdir.1/index.", "hostdir.2/index.", "hostdir.0/index.", "hostdir.7/index.")
    data = path.read_bytes()
    if len(data) >= 40 and len(data) % 40 == 0:
        last = [int.from_bytes(data[at : at + 8], "little") for at in range(len(data) - 40, len(data), 8)]
        path.write_bytes(data + spelled([chance.randrange(50), 4, last[2] + last[1], last[3] + 1, last[4]]))
        if chance.random() < 0.5:
            log = path.with_name(path.name.replace("index", "log"))
            with open(log, "ab") as file:
                file.write(b"more")


def odd_name(chance, root):
    """A file whose name none may have, or that no listing can tell."""
    folders = [path for path in root.glob("*/*") if path.is_dir()] + [path for path in root.iterdir() if path.is_dir()]
    names = (b"a\nb", b"a b", b"%41", b"-", b"x" * 96, b"x" * 97, b"x" * 255, b"\xff\xfe", b"\xc3\xa4", b"5.0.", b".5", b"+5.0", b"5.-1", b"0x5.0", b"5.0\n", b"\xd9\xa5.0", b"index.0.4294967297 ", b"." * 40)
    path = os.path.join(os.fsencode(chance.choice(folders)), chance.choice(names))
    if not os.path.lexists(path):
        (os.mkdir if chance.random() < 0.2 else os.mknod)(path)


def link_in_its_place(chance, root):
    """A link to what was there, to nothing, or to itself."""
    path = chance.choice([*files_below(root), *(path for path in root.glob("*/*") if path.is_dir())])
    away = root.with_name("away")
    if away.exists():
        shutil.rmtree(away) if away.is_dir() else away.unlink()
    path.rename(away)
    path.symlink_to(chance.choice((away, path.parent / "nothing", path)))


def second_name(chance, root):
    """A file under a second name."""
    path, other = one_of(chance, root), one_of(chance, root)
    to = other.with_name(chance.choice((other.name + "0", path.name, "7.7")))
    if not to.exists():
        os.link(path, to)


def no_plain_file(chance, root):
    """A pipe or a socket in a file's place, or beside it."""
    path = one_of(chance, root)
    if chance.random() < 0.5:
        path.unlink()
    else:
        path = path.with_name("pipe")
    if chance.random() < 0.5:
        os.mkfifo(path)
    else:
        os.mknod(path, stat.S_IFSOCK | 0o600)


def far_end(chance, root):
    """A file with a hole behind its bytes: of many GB where a check asks for its length alone."""
    path = one_of(chance, root, "hostdir.", "flats", "metadata", "access")
    is_measured = path.name.startswith(("log.", "access")) or path.parent.name == "metadata"
    os.truncate(path, path.stat().st_size + chance.choice((40, 2**20, 2**20 + 40, *((2**32, 2**40 + 1) if is_measured else ()))))


def other_kept_beside(chance, root):
    """What a file system keeps beside the bytes of a file: it says nothing of soundness."""
    path = one_of(chance, root)
    os.utime(path, ns=(0, chance.choice((0, 2**62))))
    path.chmod(chance.choice((0o000, 0o444, 0o777)))
    try:
        os.setxattr(path, "user.note", b"x" * 1000)
    except OSError:
        pass


DAMAGES = [odd_name, odd_name, link_in_its_place, second_name, no_plain_file, far_end, far_end, other_kept_beside, change_byte, change_number, change_number, cut_file, lengthen_file, remove_file, add_file, add_file, rename_file, truncate_at_an_entry, second_truncate, remove_folder, add_folder,
           folder_in_a_files_place, file_in_a_folders_place, remove_mark, add_container, swap_files, one_entry_more]


def damaged(trial, kept, chance, turn):
    """A copy of the good folder with one to three damages, and their names."""
    root = trial.folder / f"damaged{turn}"
    shutil.copytree(kept, root)
    names = []
    # Each kind comes in turn, and others by chance.
    for damage in [DAMAGES[turn % len(DAMAGES)], *chance.choices(DAMAGES, k=chance.choice((0, 0, 0, 1, 2)))]:
        try:
            damage(chance, root)
            names.append(damage.__name__)
        except (IndexError, OSError):
            pass
    return root, names


def kept_of(root):
    """What lies below a folder: of each path its kind, mode, length and time, and its first bytes."""
    found = {}
    for at, folders, files in os.walk(os.fsencode(root)):
        for name in folders + files:
            path = os.path.join(at, name)
            told = os.lstat(path)
            found[path] = (told.st_mode, told.st_size, told.st_mtime_ns, first_bytes(path, told))
    return found


def first_bytes(path, told):
    if not stat.S_ISREG(told.st_mode) or not os.access(path, os.R_OK):
        return b""
    with open(path, "rb") as file:
        return file.read(2**16)
