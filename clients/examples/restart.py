#!/usr/bin/env python3
"""restart.py ROOT NAME: a computation writes its state, is stopped, and goes on from what it finds.

With numpy the state is an array that numpy.save wrote; else it is an array of the standard library."""

import array
import shutil
import sys

import plfs

try:
    import numpy
except ImportError:
    numpy = None

COUNT = 100_000


def write_state(fs, name):
    """Writes the state, and syncs it before its writer closes."""
    with fs.open(name, "wb") as out:
        if numpy:
            numpy.save(out, numpy.arange(COUNT) * 0.5)
        else:
            out.write(array.array("d", (k * 0.5 for k in range(COUNT))))
        out.sync()


def read_state(fs, name):
    """The state that was written."""
    with fs.open(name, "rb") as file:
        if numpy:
            return numpy.load(file).tolist()
        state = array.array("d", bytes(file.size))
        assert file.readinto(state) == file.size
        return state.tolist()


def main(root, name):
    with plfs.Mount(root) as fs:
        write_state(fs, name)
    # The program ends here and is started again.
    with plfs.Mount(root) as fs:
        assert read_state(fs, name) == [k * 0.5 for k in range(COUNT)]
        with fs.open(name, "rb") as file, fs.open(f"{name}.copy", "wb") as out:
            shutil.copyfileobj(file, out, 1 << 20)
        assert fs.stat(f"{name}.copy") == fs.stat(name)
        assert read_state(fs, f"{name}.copy") == read_state(fs, name)
        print(f"{name}: went on from {COUNT} numbers; files: {' '.join(fs.list())}")


if __name__ == "__main__":
    if len(sys.argv) != 3:
        sys.exit("usage: restart.py ROOT NAME")
    main(*sys.argv[1:])
