"""Files of a store of Rigtolai, written and read by the standard library alone.

    with plfs.Mount("/ckpt") as fs:
        with fs.open("step", "wb") as out:      # a writer: in order, or at any place by pwrite
            out.write(data)
        with fs.open("step", "rb") as file:     # a reader: a binary file that can be sought
            file.readinto(buffer)

A mount starts the engine `plfs_serve`: the program that $PLFS_SERVE names, or else the one on the path. A folder belongs to one
engine at a time. Several processes share one by `Mount(at=FOLDER)`, or $PLFS_AT: it was started as `plfs_serve ROOT --at FOLDER`. Any thread may call. A request and its answer go under one lock, and that order is the one that all see.

`plfs.open(root, name, mode)` is a file with a mount of its own. Sizes and places are in bytes, stamps in nanoseconds since 1970.
Buffers are handed to the system as they lie in memory, and have to be contiguous.
"""

import contextlib
import errno
import fcntl
import io
import itertools
import operator
import os
import select
import stat
import struct
import subprocess
import termios
import threading
import time

__all__ = ["Error", "Mount", "Reader", "Why", "Writer", "open"]

OPEN, WRITE, SYNC, CLOSE, OPEN_READ, READ, REFRESH, PIECES, CLOSE_READ, STAT, TRUNC, RENAME, FLATTEN, RECOVER, LIST = range(1, 16)
# Actors are 0 to HANDLES, and the first makes the statements that need no handle. Bytes of one request: longer ones are several.
HANDLES, NAMES, LONGEST, PIPE = 255, 0, 1 << 24, 1 << 20
HANDLES_AT = 15  # where an engine was joined
WAIT = 5  # seconds in which an engine that is joined may begin, where nothing else is said
TAKEN_UP = 1000  # milliseconds, long behind the reading of a name that announces a process, in which an engine opens that process's pipes
DYING = 100  # milliseconds, in which an engine that is killed closes all its pipes
COUNT = itertools.count()
HEAD, ANSWER = struct.Struct("<6Q"), struct.Struct("<4Q")
MADE, REFUSED, NO_REQUEST, NO_MEMORY, FAULT, DAMAGED = 0, 1, 2, 3, 4, 7


class Why:
    """Why a call did not do what it says. The numbers are those of plfs.h."""

    (NO_FILE, HELD, BUSY, EXISTS, TOO_FAR, STAMPS_SPENT, IDS_SPENT, NOT_OPEN, ALREADY_OPEN, MOUNTS_SPENT, BAD_NAME, BAD_NUMBER, NO_HANDLE,
     NO_MEMORY, NOT_STARTED, NO_ROOT, DAMAGED, FAULT, ENGINE_MEMORY, GONE, STRANGE) = range(1, 22)


WORDS = ("done", "no such file", "the file is held", "a writer has the file open", "the name is taken", "past the greatest size", "no stamp is left",
         "no id is left", "it isn't open", "it is open already", "no mount is left", "no name of a file", "a number is out of range",
         "too many handles are open", "memory was refused", "there is no engine", "no list of folders", "an item is damaged",
         "the store failed, or is in use", "the engine was refused memory", "the engine is gone", "the engine's answer is none")
ENDS = {1: Why.MOUNTS_SPENT, 2: Why.NO_ROOT, 3: Why.ENGINE_MEMORY, 4: Why.FAULT, 7: Why.DAMAGED}


NUMBERS = (0, errno.ENOENT, errno.EBUSY, errno.EBUSY, errno.EEXIST, errno.EFBIG, errno.EOVERFLOW, errno.EOVERFLOW, errno.EBADF, errno.EBUSY, errno.EOVERFLOW,
           errno.EINVAL, errno.EINVAL, errno.EMFILE, errno.ENOMEM, errno.ECHILD, errno.EINVAL, errno.EIO, errno.EIO, errno.ENOMEM, errno.EPIPE, errno.EPROTO)


class Error(OSError):
    """A call that did not do what it says. `why` is one of Why, and `errno` the number of the system that fits it. `filename` is the name of the
    file, and `filename2` that which a rename would give. Where there is no such file it is a FileNotFoundError too, and where the name is taken a
    FileExistsError. Where there is no engine it is that of its program or folder. At damage `item` is the path of the item in its container, and `place` is that of the damage in it."""

    def __new__(cls, why, item=None, place=None, name=None, to=None):
        kind = {Why.NO_FILE: NoFile, Why.EXISTS: Exists}.get(why, Error)
        where = f": {item} at {place}" if item else ""
        self = super().__new__(kind, NUMBERS[why], WORDS[why] + where, name, None, to)
        self.why, self.item, self.place = why, item, place
        return self

    def __reduce__(self):
        return Error, (self.why, self.item, self.place, self.filename, self.filename2)


class NoFile(Error, FileNotFoundError):
    """There is no such file."""


class Exists(Error, FileExistsError):
    """The name is taken."""


def _error_of(kind, status, value, payload, names):
    if status == REFUSED and Why.NO_FILE <= value <= Why.MOUNTS_SPENT:
        return Error(value, None, None, *names)
    if status == NO_REQUEST and (kind in (OPEN, OPEN_READ) or kind >= STAT):
        return Error(Why.BAD_NAME, None, None, *names)
    if status == DAMAGED:
        return Error(Why.DAMAGED, bytes(payload).decode(errors="replace"), value, *names)
    return Error({NO_MEMORY: Why.ENGINE_MEMORY, FAULT: Why.FAULT}.get(status, Why.STRANGE), None, None, *names)


def _flat(data):
    """The bytes of a buffer as they lie in memory. A buffer without bytes may have a shape that can't be cast."""
    view = memoryview(data)
    return view.cast("B") if view.nbytes else memoryview(b"")


def _named(name):
    return name.encode() if isinstance(name, str) else bytes(name)


def _pipe():
    """A pipe whose ends no program inherits, and neither of which has the number of a standard stream."""
    ends = list(os.pipe())
    for k, low in enumerate(ends):
        if low <= 2:
            ends[k] = fcntl.fcntl(low, fcntl.F_DUPFD_CLOEXEC, 3)
            os.close(low)
    _widen(ends[1])
    return ends


def _widen(end):
    """Gives a pipe more room, which is quicker, where the system allows it."""
    with contextlib.suppress(OSError):
        fcntl.fcntl(end, 1031, PIPE)  # F_SETPIPE_SZ


def _named_pipe(path, how):
    """Opens what stands there, where it is a named pipe, with a number above those of the standard streams."""
    end = os.open(path, how)
    if end <= 2:
        low, end = end, fcntl.fcntl(end, fcntl.F_DUPFD_CLOEXEC, 3)
        os.close(low)
    if stat.S_ISFIFO(os.fstat(end).st_mode):
        return end
    os.close(end)
    raise OSError(errno.EINVAL, "no named pipe", path)


def _door(folder):
    """Opens the pipe of the folder on which processes announce themselves, which fails where no engine reads it. It waits for one to begin: as many
    seconds as $PLFS_WAIT says."""
    seconds = os.environ.get("PLFS_WAIT", "")
    last = time.monotonic() + (int(seconds) if seconds.isdecimal() else WAIT)
    while True:
        try:
            return _named_pipe(f"{folder}/join", os.O_WRONLY | os.O_NONBLOCK)
        except OSError as error:
            may_begin = error.errno == errno.ENXIO or error.errno == errno.ENOENT and os.path.isdir(folder)
            if not may_begin or time.monotonic() >= last:
                raise
        time.sleep(0.02)


def _remove(path):
    """Removes what stands there, if it does."""
    with contextlib.suppress(OSError):
        os.unlink(path)


def _pair(folder):
    """Makes two named pipes of a name of this process's own. Gives that name and their paths."""
    for k in COUNT:
        name = f"{os.getpid()}-{k}"
        paths = f"{folder}/{name}.in", f"{folder}/{name}.out"
        try:
            os.mkfifo(paths[0], 0o600)
        except FileExistsError:
            continue
        try:
            os.mkfifo(paths[1], 0o600)
            return name.encode(), paths
        except OSError as error:
            os.unlink(paths[0])
            if not isinstance(error, FileExistsError):
                raise


class Mount:
    """A folder, or 1 to 8 of them with colons between, whose files are opened here. It is a context: its end unmounts. One that nothing names any
    more is closed too."""

    _to = _from = None

    def __init__(self, root=None, host=0, engine=None, at=None):
        """Joins the engine that serves by the folder `at`, or else by that of $PLFS_AT, whatever `root` and `host` say. Without one it starts an
        engine, whose writers are of this host. What is typed to interrupt this program doesn't end it: it has a session of its own."""
        at = at or os.environ.get("PLFS_AT")
        self._lock, self._number, self._gone, self._process = threading.Lock(), 0, None, os.getpid()
        self._free, self.engine = list(range(HANDLES_AT if at else HANDLES, 0, -1)), None
        if at:
            try:
                self._join(os.fspath(at))
            except BaseException:
                self._drop()
                raise
        else:
            self._start(root, host, engine or os.environ.get("PLFS_SERVE") or "plfs_serve")

    def _start(self, root, host, program):
        words, ends = ["plfs_serve", os.fspath(root), str(host)], []
        try:
            ends += _pipe()
            ends += _pipe()
            self.engine = subprocess.Popen(words, executable=program, stdin=ends[0], stdout=ends[3], start_new_session=True)
        except BaseException as error:
            for end in ends:
                os.close(end)
            raise Error(Why.NOT_STARTED, None, None, program) if isinstance(error, OSError) else error
        to, self._to, self._from, out = ends
        os.close(to)
        os.close(out)
        self._greet()

    def _greet(self):
        """Waits until the folder is mounted: the engine answers as soon as it is. It refuses to close a reader that isn't there."""
        try:
            self.ask(CLOSE_READ, NAMES)
            why = Why.STRANGE
        except Error as error:
            why = error.why
        if why != Why.NOT_OPEN:
            ended = self._end()
            # what an engine says that doesn't mount is no answer, but its status tells why
            raise Error(ENDS.get(ended, why) if why in (Why.GONE, Why.STRANGE) else why)

    def _join(self, folder):
        """Makes two named pipes of a name of its own, announces this process, and is let in. While it reads its own requests' pipe no opening
        waits. Before the engine opens the pipe of answers nothing comes of it, and no end either."""
        with contextlib.ExitStack() as ends:
            try:
                door = _door(folder)
                ends.callback(os.close, door)
                name, paths = _pair(folder)
                for path in paths:
                    ends.callback(_remove, path)
                own = ends.enter_context(contextlib.ExitStack())
                own.callback(os.close, _named_pipe(paths[0], os.O_RDONLY | os.O_NONBLOCK))
                self._to = _named_pipe(paths[0], os.O_WRONLY)
                self._from = _named_pipe(paths[1], os.O_RDONLY | os.O_NONBLOCK)
                os.set_blocking(self._from, True)
                _widen(self._to)
                _widen(self._from)
                os.write(door, name + b"\n")
                self._send(HEAD.pack(CLOSE_READ, NAMES, 0, 0, 0, 0), memoryview(b""))
            except OSError:
                raise Error(Why.NOT_STARTED, None, None, folder) from None
            came = self._wait_in(door, own)
            if not came.get(self._from, 0) & select.POLLIN:
                raise Error(Why.GONE if door in came or self._from not in came else Why.NO_HANDLE)
            self._take(memoryview(bytearray(ANSWER.size)))

    def _wait_in(self, door, own):
        """What comes of the pipes. An engine that died as it had read the name, or that may not open the pipes, never does that. So some time behind
        that reading somebody else must read the requests: without an end of its own their pipe tells an error where nobody does."""
        waits = select.poll()
        waits.register(self._from, select.POLLIN)
        waits.register(door, 0)
        most = TAKEN_UP
        while not (came := dict(waits.poll(most))):
            unread = struct.unpack("i", fcntl.ioctl(door, termios.FIONREAD, bytes(4)))[0]
            if not unread:
                own.close()
                waits.register(self._to, 0)
                most = None
        if came.get(self._from, select.POLLIN) & select.POLLIN == 0 and door not in came:
            waits.unregister(self._from)
            came.update(waits.poll(DYING))
        return came

    # ---- requests

    def _send(self, head, payload):
        parts = [memoryview(head), payload]
        while parts:
            sent = os.writev(self._to, parts)
            while parts and sent >= len(parts[0]):
                sent -= len(parts.pop(0))
            if parts:
                parts[0] = parts[0][sent:]

    def _take(self, view):
        while view:
            got = os.readv(self._from, [view])
            if not got:
                raise Error(Why.GONE)
            view = view[got:]

    def _exchange(self, kind, actor, place, extent, payload, into):
        self._number += 1
        self._send(HEAD.pack(kind, actor, self._number, place, extent, len(payload)), payload)
        head = bytearray(ANSWER.size)
        self._take(memoryview(head))
        number, status, value, length = ANSWER.unpack(head)
        if number != self._number:
            raise Error(Why.STRANGE)
        if status == MADE and into is not None:
            if value != length or length > len(into):
                raise Error(Why.STRANGE)
            view = into[:length]
        else:
            view = memoryview(bytearray(length))
        self._take(view)
        return status, value, view

    def ask(self, kind, actor, place=0, extent=0, payload=b"", into=None, names=()):
        """Makes one request. Gives the answer's value, and its bytes, which are those of `into` where that is given. An error tells these names
        of files."""
        payload, place, extent = _flat(payload), operator.index(place), operator.index(extent)
        if not (0 <= place < 1 << 64 and 0 <= extent < 1 << 64):
            raise Error(Why.BAD_NUMBER)
        if self._process != os.getpid():  # a child of fork would take its parent's answers
            raise Error(Why.NOT_OPEN, None, None, *names)
        with self._lock:
            if self._gone:
                raise Error(self._gone)
            try:
                status, value, view = self._exchange(kind, actor, place, extent, payload, into)
            except BaseException as error:  # the pipes are out of step
                self._gone = error.why if isinstance(error, Error) else Why.GONE
                raise Error(self._gone) if isinstance(error, OSError) else error
            if status == MADE:
                return value, view
            error = _error_of(kind, status, value, view, names)
            if error.why in (Why.ENGINE_MEMORY, Why.STRANGE):
                self._gone = error.why
        try:
            raise error
        finally:
            del error  # which has this frame in its traceback: the two would hold the mount until cycles are collected

    def _actor(self):
        with self._lock:
            if not self._free:
                raise Error(Why.NO_HANDLE)
            return self._free.pop()

    def _leave(self, actor):
        with self._lock:
            self._free.append(actor)

    def _by_name(self, kind, name, place=0):
        return self.ask(kind, NAMES, place, 0, _named(name), names=(name,))[0]

    # ---- files

    def open(self, name, mode="rb", workers=1):
        """A reader (`rb`), whose indices are read in so many shares, 1 to 16; or a writer (`wb`). A writer cuts nothing: what its file had before
        stays where it isn't written."""
        if mode not in ("rb", "wb"):
            raise ValueError(f"mode is rb or wb, and not {mode!r}")
        return Reader(self, name, workers) if mode == "rb" else Writer(self, name)

    def stat(self, name):
        """The size of what has landed."""
        return self._by_name(STAT, name)

    def trunc(self, name, size):
        """Cuts the file to this size, or lengthens it by zeros, for readers that are opened later. Gives its stamp."""
        return self._by_name(TRUNC, name, size)

    def rename(self, name, to):
        """Gives the file a new name, which must be free."""
        first = _named(name)
        self.ask(RENAME, NAMES, 0, len(first), first + _named(to), names=(name, to))

    def flatten(self, name):
        """Writes the index of all that has landed as one, from which later readers start."""
        self._by_name(FLATTEN, name)

    def recover(self, name):
        """Mends what writers left that died, and takes them off the open ones. Gives how many there were."""
        return self._by_name(RECOVER, name)

    def list(self):
        """The names of all files, in the order of their bytes."""
        return bytes(self.ask(LIST, NAMES)[1]).decode().split("\n")[:-1]

    def _end(self):
        with self._lock:
            if self._to is not None:
                os.close(self._to)
                while not self.engine and os.read(self._from, 4096):
                    pass  # until the engine that was joined has closed what is open, and its end of the pipe
                os.close(self._from)  # so no answer that nobody takes keeps it from its end
                self._to = None
            self._gone = self._gone or Why.NOT_OPEN
            return self.engine.wait() if self.engine else 0

    def _drop(self):
        """Closes this process's ends of the pipes, and waits for nothing."""
        for end in (self._to, self._from):
            if end is not None:
                os.close(end)
        self._to = self._from = None

    def close(self):
        """Syncs and closes what is open, and ends the engine that was started. Waits until that is done."""
        if self._process != os.getpid():
            self._drop()
        if self._to is None:
            return
        ended = self._end()
        if ended:
            raise Error(ENDS.get(ended, Why.GONE))

    def __del__(self):
        try:
            if self._process == os.getpid():
                self.close()
            else:  # a copy in a process that was forked: the mount is the other one's
                self._drop()
        except Exception:  # at the program's end what it calls may be gone
            pass

    def __enter__(self):
        return self

    def __exit__(self, kind, *_):
        try:
            self.close()
        except Error:
            if kind is None:
                raise


class _File(io.RawIOBase):
    """What writers and readers share: a place, which moves, and the actor of their requests."""

    _actor = None

    def __init__(self, fs, kind, name, place=0):
        super().__init__()
        self.fs, self.name, self._owns, self._place, self._process = fs, name, False, 0, os.getpid()
        self._actor = fs._actor()
        try:
            self._told = fs.ask(kind, self._actor, place, payload=_named(name), names=(name,))[0]
        except BaseException:
            fs._leave(self._actor)
            self._actor = None
            super().close()
            raise

    def _ask(self, kind, *numbers, **bytes_of):
        if self._actor is None:
            raise ValueError("I/O operation on closed file")
        return self.fs.ask(kind, self._actor, *numbers, names=(self.name,), **bytes_of)

    def seekable(self):
        return True

    def readinto(self, buffer):
        raise io.UnsupportedOperation("a writer reads nothing")

    def write(self, data):
        raise io.UnsupportedOperation("a reader writes nothing")

    def tell(self):
        return self._place

    def seek(self, offset, whence=os.SEEK_SET):
        begin = {os.SEEK_SET: 0, os.SEEK_CUR: self._place, os.SEEK_END: self._end}[whence]
        if begin + offset < 0:
            raise ValueError(f"the place {begin + offset} is negative")
        self._place = begin + offset
        return self._place

    def _close_by(self, kind):
        if self._actor is None:
            return None
        actor, self._actor = self._actor, None
        if self._process != os.getpid():  # a copy in a process that was forked: the file is the other one's
            super().close()
            return None
        try:
            told = self.fs.ask(kind, actor, names=(self.name,))[0]
            self.fs._leave(actor)
            return told
        finally:
            super().close()
            if self._owns:
                self.fs.close()


class Writer(_File):
    """A writer. `write` goes on behind the last one, `pwrite` writes at a place. Readers see what has landed."""

    mode = "wb"

    def __init__(self, fs, name):
        super().__init__(fs, OPEN, name)
        self.id, self.stamp, self.landed, self._end = self._told, 0, None, 0

    def writable(self):
        return True

    def pwrite(self, data, at):
        """Writes all of the data at this place. Gives how many bytes that are; `stamp` is then that of the last request."""
        view = _flat(data)
        for start in range(0, len(view), LONGEST):
            self.stamp = self._ask(WRITE, at + start, payload=view[start : start + LONGEST])[0]
            self._end = max(self._end, at + min(start + LONGEST, len(view)))
        return len(view)

    def write(self, data):
        done = self.pwrite(data, self._place)
        self._place += done
        return done

    def sync(self):
        """Syncs what was written. Gives how many of its requests are there after any later kill or loss of power."""
        return self._ask(SYNC)[0]

    def close(self):
        """Syncs and closes; `landed` is then what `sync` would give."""
        told = self._close_by(CLOSE)
        self.landed = self.landed if told is None else told


class Reader(_File):
    """A reader of what had landed as it was opened or last refreshed. `size` is that of its file."""

    mode = "rb"

    def __init__(self, fs, name, workers=1):
        if not 1 <= workers <= 16:
            raise Error(Why.BAD_NUMBER, None, None, name)
        super().__init__(fs, OPEN_READ, name, workers)
        self.size = self._end = self._told

    def readable(self):
        return True

    def pread_into(self, buffer, at):
        """Reads into the buffer from this place on. Gives how many bytes: fewer than it has only at the file's end."""
        view, done = _flat(buffer), 0
        if view.readonly and len(view):
            raise TypeError("the buffer is read-only")
        while done < len(view):
            part = view[done : done + LONGEST]
            got = self._ask(READ, at + done, len(part), into=part)[0]
            done += got
            if got < len(part):
                break
        return done

    def readinto(self, buffer):
        done = self.pread_into(buffer, self._place)
        self._place += done
        return done

    def readall(self):
        left = bytearray(max(0, self.size - self._place))
        return bytes(memoryview(left)[: self.readinto(left)])

    def refresh(self):
        """Brings the reader to what a new one would see, and gives its size. Where that fails it is as it was."""
        self.size = self._end = self._ask(REFRESH)[0]
        return self.size

    def pieces(self):
        """How many runs of bytes the file has that lie side by side in one log."""
        return self._ask(PIECES)[0]

    def close(self):
        self._close_by(CLOSE_READ)


def open(root, name, mode="rb", host=0, workers=1):
    """A file with a mount of its own, which ends as it is closed."""
    fs = Mount(root, host)
    try:
        file = fs.open(name, mode, workers)
    except BaseException:
        fs.close()
        raise
    file._owns = True
    return file
