"""The clients that other programs write through: in C, Fortran and Python, as they are built and run."""

import copy
import errno
import gc
import io
import os
import resource
import shutil
import subprocess
import sys
import threading

import engine_model as model
from engine_model import ANSWER
from engines import client, engine, frame, has_no_dead, plfs
from trial import SECONDS, Skipped, Wrong, check, same, true

BLOCK = 47008
# The programs in C that were built: by the name of the source and the options.
BUILT = {}


def surroundings(trial, **more):
    return {"PATH": os.environ.get("PATH", "/usr/bin:/bin"), "PLFS_SERVE": engine(trial), "PYTHONPATH": str(trial.top / "clients" / "python"),
            "PYTHONDONTWRITEBYTECODE": "1", "LANG": "C.UTF-8", **more}


def ran(trial, words, seconds=6 * SECONDS, env=(), **how):
    """The status of these words, and what they print, with the engine in their surroundings."""
    how = {"stdout": subprocess.PIPE, "stderr": subprocess.PIPE, "cwd": trial.folder, **how}
    ended = subprocess.run([str(it) for it in words], env=surroundings(trial, **dict(env)), timeout=seconds, **how)
    return ended.returncode, (ended.stdout or b"").decode(), (ended.stderr or b"").decode()


def built(trial, source, *options):
    """A program in C with the client in it, with warnings as errors. It is built once for all checks."""
    if not shutil.which("cc"):
        raise Skipped("no compiler")
    key = source.stem, *options
    if key not in BUILT:
        out, folder = trial.folder.parent / f"client{len(BUILT)}", trial.top / "clients" / "c"
        words = ["cc", "-std=c11", "-Wall", "-Wextra", "-Werror", "-O1", "-g", *options, f"-I{folder}", source, *sorted(folder.glob("*.c")), "-o", out, "-pthread"]
        same("what the compiler says", ran(trial, words), (0, "", ""))
        BUILT[key] = out
    return BUILT[key]


def example(trial, name):
    return trial.top / "clients" / "examples" / name


# ---- clients


@check
def four_threads_of_a_c_program_write_one_checkpoint_that_is_read_meanwhile(trial):
    blocks = 512
    status, out, err = ran(trial, [built(trial, example(trial, "checkpoint.c")), trial.root, "step", blocks, BLOCK])
    same("how it ends", (status, out, err), (0, f"step: {blocks} blocks of {BLOCK} bytes by 4 threads are as they were written\n", ""))
    whole = plfs(trial, "cat", "step")
    same("the length of the file", len(whole), blocks * BLOCK)
    for k in (0, 1, 255, blocks - 1):
        same(f"block {k}", whole[k * BLOCK : (k + 1) * BLOCK], bytes((k * 31 + i + 1) & 255 for i in range(BLOCK)))
    has_no_dead(trial, "step")


@check
def a_fortran_program_goes_on_from_its_checkpoint(trial):
    fortran = shutil.which("gfortran")
    if not fortran:
        raise Skipped("no Fortran compiler")
    folder = trial.top / "clients"
    if not shutil.which("cc"):
        raise Skipped("no compiler")
    words = [fortran, "-O1", "-std=f2018", "-J", trial.folder, folder / "fortran" / "plfs.f90", example(trial, "stencil.f90")]
    same("what the compiler says", ran(trial, ["cc", "-std=c11", "-c", *sorted((folder / "c").glob("*.c"))]), (0, "", ""))
    words += [*sorted(trial.folder.glob("plfs_*.o")), "-o", trial.folder / "stencil", "-pthread"]
    same("what the Fortran compiler says", ran(trial, words), (0, "", ""))
    same("how it ends", ran(trial, [trial.folder / "stencil", trial.root, "grid"]), (0, "grid: a grid of 256 by 256 went on as it would have\n", ""))
    has_no_dead(trial, "grid")


UNOPENED = """program unopened
  use plfs
  use, intrinsic :: iso_c_binding, only: c_int64_t
  type(plfs_fs) :: fs
  type(plfs_file) :: file
  integer :: bytes(1)
  bytes = 0
  if (plfs_mount(ROOT, fs) < 0) stop 1
  if (plfs_open_read(fs, "away", file) /= -plfs_no_file) stop 2
  if (plfs_pread(file, bytes, 4_c_int64_t, 0_c_int64_t) /= -plfs_not_open) stop 3
  if (plfs_pwrite(file, bytes, 4_c_int64_t, 0_c_int64_t) /= -plfs_not_open) stop 4
  if (plfs_sync(file) /= -plfs_not_open .or. plfs_refresh(file) /= -plfs_not_open) stop 5
  if (plfs_size(file) /= -plfs_not_open .or. plfs_pieces(file) /= -plfs_not_open) stop 6
  if (plfs_stamp(file) /= 0 .or. plfs_close(file) /= 0) stop 7
  if (plfs_unmount(fs) /= 0 .or. plfs_unmount(fs) /= -plfs_not_open) stop 8
  if (plfs_stat(fs, "f") /= -plfs_not_open) stop 9
end program
"""


@check
def a_fortran_program_is_refused_calls_of_what_was_not_opened(trial):
    folder, source = trial.top / "clients", trial.folder / "unopened.f90"
    fortran = shutil.which("gfortran")
    if not fortran or not shutil.which("cc"):
        raise Skipped("no Fortran compiler")
    source.write_text(UNOPENED.replace("ROOT", f'"{trial.root}"'))
    same("what the compiler says", ran(trial, ["cc", "-std=c11", "-c", *sorted((folder / "c").glob("*.c"))]), (0, "", ""))
    words = [fortran, "-std=f2018", "-J", trial.folder, folder / "fortran" / "plfs.f90", source, *sorted(trial.folder.glob("plfs_*.o"))]
    same("what the Fortran compiler says", ran(trial, [*words, "-o", trial.folder / "unopened", "-pthread"]), (0, "", ""))
    same("how it ends", ran(trial, [trial.folder / "unopened"]), (0, "", ""))


@check
def a_python_program_is_restarted(trial):
    out = "state: went on from 100000 numbers; files: state state.copy\n"
    python = next(it for it in (sys.executable, "/usr/bin/python3", shutil.which("python3")) if it and os.access(it, os.X_OK))
    same("how it ends", ran(trial, [python, example(trial, "restart.py"), trial.root, "state"]), (0, out, ""))
    same("the copy", plfs(trial, "cat", "state.copy"), plfs(trial, "cat", "state"))


# What a program with numpy does.
NUMPY = """
import sys
import numpy, plfs
grid = numpy.arange(300_000, dtype="f8").reshape(300, 1000)
with plfs.Mount(sys.argv[1]) as fs:
    with fs.open("grid", "wb") as out:
        numpy.save(out, grid)
    with fs.open("pair", "wb") as out:
        numpy.savez(out, grid=grid, row=grid[3])
    with fs.open("grid", "rb") as file:
        print((numpy.load(file) == grid).all())
    with fs.open("pair", "rb") as file:
        pair = numpy.load(file)
        print((pair["grid"] == grid).all() and (pair["row"] == grid[3]).all())
"""


@check
def what_numpy_saves_it_loads(trial):
    for python in dict.fromkeys((sys.executable, "/usr/bin/python3")):
        if os.access(python, os.X_OK) and ran(trial, [python, "-c", "import numpy"])[0] == 0:
            same("what is as it was saved", ran(trial, [python, "-c", NUMPY, trial.root]), (0, "True\nTrue\n", ""))
            return
    raise Skipped("no numpy")


@check
def files_of_the_python_client_are_binary_files(trial):
    plfs_client = client(trial)
    text = "".join(f"line {k}\n" for k in range(1000))
    with plfs_client.Mount(trial.root, engine=engine(trial)) as fs:
        with fs.open("f", "wb") as out:
            shutil.copyfileobj(io.BytesIO(text.encode()), out, 100)
            same("what stands", (out.tell(), out.sync(), out.writable(), out.readable(), out.closed), (len(text), -(-len(text) // 100), True, False, False))
            out.seek(0)
            same("how many are written", out.write(memoryview(bytearray(b"LINE"))), 4)
        same("what has landed", (out.landed, out.closed), (-(-len(text) // 100) + 1, True))
        text = "LINE" + text[4:]
        with fs.open("f", "rb", workers=3) as file:
            same("its lines", list(io.TextIOWrapper(io.BufferedReader(file))), text.splitlines(True))
        with fs.open("f", "rb") as file:
            got = bytearray(7)
            same("what is read", (file.seek(-5, 2), file.read(), file.seek(2), file.readinto(got), bytes(got)), (len(text) - 5, text[-5:].encode(), 2, 7, text[2:9].encode()))
            same("all of it", (file.seek(0), file.readall()), (0, text.encode()))
            same("past the end", (file.seek(10**6), file.read(), file.read(5)), (10**6, b"", b""))
            wrongs = [(lambda: file.seek(-1), ValueError), (lambda: file.write(b"x"), io.UnsupportedOperation), (lambda: fs.open("f", "r+b"), ValueError)]
            for call, kind in wrongs:
                try:
                    call()
                    raise Wrong("a call that can't be was made")
                except kind:
                    pass
        whys = [("away", "rb", 1, plfs_client.Why.NO_FILE), ("a/b", "wb", 1, plfs_client.Why.BAD_NAME), ("f", "rb", 17, plfs_client.Why.BAD_NUMBER)]
        for name, mode, workers, why in whys:
            try:
                fs.open(name, mode, workers)
                raise Wrong(f"{name} was opened")
            except plfs_client.Error as error:
                same("why", error.why, why)
        same("size, pieces and names", (fs.stat("f"), fs.list()), (len(text), ["f"]))
        fs.rename("f", "g")
        fs.flatten("g")
        fs.trunc("g", 4)
        same("what is left", (fs.stat("g"), fs.recover("g"), fs.list()), (4, 0, ["g"]))
    with plfs_client.open(trial.root, "h", "wb") if not os.environ.update(PLFS_SERVE=engine(trial)) else None as out:
        out.write(b"alone")
    with plfs_client.open(trial.root, "h") as file:
        same("what is read back", file.read(), b"alone")


@check
def several_handles_of_one_engine_write_one_file_that_is_read_meanwhile(trial):
    """Four threads with two writers each, by turns; a reader sees whole blocks alone, and at least those that were told as synced."""
    threads, each, size = 4, 40, 3000
    plfs_client, synced, troubles = client(trial), [0] * threads, []
    block = lambda k: bytes([k % 255 + 1]) * size

    def write(fs, rank):
        try:
            with fs.open("f", "wb") as one, fs.open("f", "wb") as other:
                for k in range(each):
                    place = k * threads + rank
                    (one, other)[k & 1].pwrite(block(place), place * size)
                    if k % 8 == 7:
                        one.sync()
                        other.sync()
                        synced[rank] = k + 1
        except Exception as error:
            troubles.append(error)

    with plfs_client.Mount(trial.root, engine=engine(trial)) as fs:
        fs.open("f", "wb").close()
        writers = [threading.Thread(target=write, args=(fs, rank)) for rank in range(threads)]
        for writer in writers:
            writer.start()
        with fs.open("f", "rb") as file:
            looks = 0
            while looks < 3 or any(it.is_alive() for it in writers):
                told = list(synced)
                file.refresh()
                file.seek(0)
                whole = file.readall()
                for place in range(threads * each):
                    got = whole[place * size : (place + 1) * size]
                    is_told = place // threads < told[place % threads]
                    true(f"block {place} is {got[:9]!r} ..", got == block(place) or not is_told and not any(got))
                looks += 1
        for writer in writers:
            writer.join()
        same("the troubles of writers", troubles, [])
    same("the file", plfs(trial, "cat", "f"), b"".join(block(k) for k in range(threads * each)))


@check
def an_error_of_the_python_client_is_one_of_the_system_and_names_the_file(trial):
    plfs_client = client(trial)
    with plfs_client.Mount(trial.root, engine=engine(trial)) as fs:
        for name in "fg":
            fs.open(name, "wb").close()
        wrongs = [
            (lambda: fs.open("away"), FileNotFoundError, errno.ENOENT, "away", None),
            (lambda: fs.stat(b"away"), FileNotFoundError, errno.ENOENT, b"away", None),
            (lambda: fs.rename("f", "g"), FileExistsError, errno.EEXIST, "f", "g"),
            (lambda: fs.open("a/b", "wb"), plfs_client.Error, errno.EINVAL, "a/b", None),
            (lambda: fs.open("f", "rb", 17), plfs_client.Error, errno.EINVAL, "f", None),
        ]
        def checked(call, kind, number, name, to):
            try:
                call()
                raise Wrong("a call that can't be was made")
            except OSError as error:
                for it in (error, copy.copy(error)):
                    same("the error", (isinstance(it, kind), isinstance(it, plfs_client.Error), it.errno, it.filename, it.filename2), (True, True, number, name, to))
                true(f"it says {error}", repr(name) in str(error))

        for wrong in wrongs:
            checked(*wrong)
        with fs.open("f", "wb"):
            checked(lambda: fs.trunc("f", 0), plfs_client.Error, errno.EBUSY, "f", None)


@check
def a_mount_of_the_python_client_that_is_dropped_is_closed(trial):
    plfs_client = client(trial)
    fs = plfs_client.Mount(trial.root, engine=engine(trial))
    file = fs.open("f", "wb")
    file.write(b"kept")
    started = fs.engine
    if not os.fork():  # a copy of the mount ends with its process, and the mount goes on
        fs = file = None
        os._exit(0)
    os.wait()
    del fs
    file.write(b" on")
    same("the engine of a file that is there", started.poll(), None)
    del file
    gc.collect()
    same("how the engine ended", started.poll(), 0)
    same("the file", plfs(trial, "cat", "f"), b"kept on")


@check
def a_python_program_mounts_anew_as_soon_as_nothing_names_its_mount(trial):
    """Nothing has to collect cycles before that: an error that a mount met holds no frame that names it."""
    plfs_client = client(trial)
    gc.disable()
    try:
        for k in range(3):
            fs = plfs_client.Mount(trial.root, engine=engine(trial))
            fs.open("f", "wb").pwrite(b"kept", 4 * k)
            try:
                fs.open("away", "rb")
                raise Wrong("a file that isn't there was opened")
            except plfs_client.Error as error:
                same("why", error.why, plfs_client.Why.NO_FILE)
            del fs
    finally:
        gc.enable()
    same("the file", plfs(trial, "cat", "f"), 3 * b"kept")


@check
def a_mount_of_the_python_client_that_failed_closes_nothing_later(trial):
    plfs_client = client(trial)
    door = trial.folder / "door"
    door.mkdir()
    os.mkfifo(door / "join")
    calls = [({"root": trial.root, "engine": "/away/plfs_serve"}, "/away/plfs_serve"), ({"at": trial.folder}, str(trial.folder)), ({"at": door}, str(door)),
             ({"root": "", "engine": engine(trial)}, None)]
    for how, named in calls:
        try:
            plfs_client.Mount(**how)
            raise Wrong("a mount was made")
        except plfs_client.Error as error:
            same("what it names", error.filename, named)
            kept = error
        others = [os.open(os.devnull, os.O_RDONLY) for _ in range(8)]
        del kept
        gc.collect()
        for it in others:
            os.close(it)
    fs = plfs_client.Mount(trial.root, engine=engine(trial))
    fs.close()
    try:
        fs.list()
        raise Wrong("a closed mount has files")
    except plfs_client.Error as error:
        same("why", error.why, plfs_client.Why.NOT_OPEN)


@check
def a_child_of_fork_is_refused_its_parents_mount_and_takes_none_of_its_answers(trial):
    plfs_client = client(trial)
    with plfs_client.Mount(trial.root, engine=engine(trial)) as fs, fs.open("f", "wb") as out:
        child = os.fork()
        if not child:
            try:
                calls = [lambda: out.write(b"theirs"), out.sync, fs.list, lambda: fs.open("g", "wb")]
                refused = []
                for call in calls:
                    try:
                        call()
                    except plfs_client.Error as error:
                        refused.append(error.why)
                fs.close()
                os._exit(refused != [plfs_client.Why.NOT_OPEN] * len(calls))
            finally:
                os._exit(2)
        for k in range(200):
            out.pwrite(b"own", 3 * k)
        same("how the child ends", os.waitstatus_to_exitcode(os.waitpid(child, 0)[1]), 0)
        same("what is synced", out.sync(), 200)
    same("the file", plfs(trial, "cat", "f"), b"own" * 200)


# ---- the client in C


def in_use(trial, root):
    """An engine that has the folder until its input is closed."""
    started = subprocess.Popen([engine(trial), str(root)], stdin=subprocess.PIPE, stdout=subprocess.PIPE, stderr=subprocess.PIPE)
    started.stdin.write(frame(model.LIST, 0))
    started.stdin.flush()
    same("its answer", started.stdout.read(ANSWER.size), ANSWER.pack(0, 0, 0, 0))
    return started


def calls_are_right(trial, program, *before, env=(), root="root"):
    """Makes all calls of the client in C, before the name of which these words stand."""
    root, other = trial.folder / root, trial.folder / "other"
    root.mkdir(exist_ok=True)
    other.mkdir(exist_ok=True)
    user = in_use(trial, other)
    try:
        status, out, _ = ran(trial, [*before, program, root, other, trial.folder / "away"], env=env)
    finally:
        user.communicate()
    same("what the calls say", (status, out), (0, ""))


@check
def each_call_of_the_c_client_and_its_errors(trial):
    calls_are_right(trial, built(trial, trial.top / "clients" / "tests" / "calls.c"))


@check
def threads_of_a_c_program_have_requests_on_their_way_at_once_and_each_its_own_answers(trial):
    program = built(trial, trial.top / "clients" / "tests" / "threads.c")
    same("what the threads say", ran(trial, [program, trial.root, 12, 160]), (0, "", ""))


@check
def no_thread_waits_for_an_engine_that_was_killed(trial):
    program = built(trial, trial.top / "clients" / "tests" / "threads.c")
    for number in range(12):
        root = trial.folder / f"root{number}"
        root.mkdir()
        status, out, _ = ran(trial, [program, root, 1 + number, 0, "kill"])
        if status == 77:
            raise Skipped("the system doesn't name a thread's children")
        same("what the threads say", (status, out), (0, ""))


@check
def the_c_client_is_clean_under_sanitizers(trial):
    options = ["-fsanitize=address,undefined", "-fno-sanitize-recover=all"]
    probe = trial.folder / "probe.c"
    probe.write_text("int main(void) { return 0; }\n")
    if not shutil.which("cc"):
        raise Skipped("no compiler")
    if subprocess.run(["cc", *options, probe, "-o", trial.folder / "probe"], stderr=subprocess.DEVNULL).returncode or subprocess.run([trial.folder / "probe"]).returncode:
        raise Skipped("no sanitizers")
    calls_are_right(trial, built(trial, trial.top / "clients" / "tests" / "calls.c", *options))
    program = built(trial, trial.top / "clients" / "tests" / "threads.c", "-fsanitize=thread")
    same("what the threads say", ran(trial, [program, trial.root, 6, 32]), (0, "", ""))
    program = built(trial, example(trial, "checkpoint.c"), "-fsanitize=thread")
    same("how it ends", ran(trial, [program, trial.root, "step", 64, 5000]), (0, "step: 64 blocks of 5000 bytes by 4 threads are as they were written\n", ""))


@check
def the_c_client_is_clean_under_valgrind(trial):
    if not shutil.which("valgrind"):
        raise Skipped("no valgrind")
    words = ["valgrind", "-q", "--error-exitcode=9", "--leak-check=full", "--track-fds=yes", "--child-silent-after-fork=yes"]
    program = built(trial, example(trial, "checkpoint.c"))
    status, out, err = ran(trial, [*words, program, trial.root, "step", 16, 5000])
    same("how it ends", (status, out), (0, "step: 16 blocks of 5000 bytes by 4 threads are as they were written\n"))
    true(f"valgrind says {err!r}", "definitely lost" not in err and "uninitialised" not in err)


@check
def the_c_client_works_without_standard_streams_and_with_little_stack(trial):
    program = built(trial, example(trial, "checkpoint.c"))
    for number, closed in enumerate([(0,), (0, 2), (0, 1, 2), (2,)]):
        status, _, _ = ran(trial, [program, trial.root, f"step{number}", 16, 5000], preexec_fn=lambda: [os.close(it) for it in closed])
        same(f"the status without {closed}", status, 0)
        same(f"the length of step{number}", len(plfs(trial, "cat", f"step{number}")), 16 * 5000)
    limit = lambda: resource.setrlimit(resource.RLIMIT_STACK, (256 * 1024, 256 * 1024))
    same("the status with little stack", ran(trial, [program, trial.root, "little", 16, 5000], preexec_fn=limit)[0], 0)


@check
def the_clients_are_installed_and_found_by_pkg_config(trial):
    for tool in ("make", "cc", "pkg-config", "install"):
        if not shutil.which(tool):
            raise Skipped(f"no {tool}")
    prefix = trial.folder / "prefix"
    status, out, err = ran(trial, ["make", "-s", "-C", trial.top / "clients", f"OUT={trial.folder / 'made'}", f"PREFIX={prefix}", "install"])
    same("how make ends", (status, err), (0, ""))
    env = {"PKG_CONFIG_PATH": str(prefix / "lib" / "pkgconfig")}
    status, flags, err = ran(trial, ["pkg-config", "--cflags", "--libs", "plfs"], env=env)
    same("how pkg-config ends", (status, err), (0, ""))
    version = (trial.top / "plfs").read_text().split("\nversion=")[1].split("\n")[0]
    same("the version", ran(trial, ["pkg-config", "--modversion", "plfs"], env=env)[1], f"{version}\n")
    words = ["cc", "-std=c11", example(trial, "checkpoint.c"), *flags.split(), "-o", trial.folder / "installed"]
    same("what the compiler says", ran(trial, words), (0, "", ""))
    same("the status", ran(trial, [trial.folder / "installed", trial.root, "step", 8, 100])[0], 0)
    for name in ("share/plfs/python/plfs.py", "include/plfs/plfs.f90", "share/man/man1/plfs_serve.1"):
        true(f"{name} isn't there", (prefix / name).exists())
