"""A disk that is really full: a file system of few bytes in memory, mounted where the checks alone see it."""

import shutil
import subprocess

from copies_in import BLOCK
from trial import SECONDS, Skipped, check, same, true

# Mounts so many bytes on ROOT, and makes what follows there. All of it is gone as the last process ends.
MOUNT = 'mount -t tmpfs -o size="$1" none "$2" && cd "$3" && . ./steps'
# How one program ends: its status goes to a file, and its two outputs to two others.
STEP = 'it() { at="$1"; shift; "$@" > "$at.out" 2> "$at.err"; echo $? > "$at.status"; }\n'


def on_a_disk_of(trial, most, steps):
    """Makes these steps of a shell, where ROOT is a file system of so many bytes and root a word for it."""
    names = {name: trial.folder / name for name in ("plfs", "plfs_copy", "plfs_check", "plfs_serve")}
    for name, place in names.items():
        place.symlink_to(trial.program)
    (trial.folder / "steps").write_text(f"PATH={trial.folder}:$PATH\nroot={trial.root}\n{STEP}{steps}\n")
    if not shutil.which("unshare"):
        raise Skipped("no unshare")
    words = ["unshare", "--user", "--map-root-user", "--mount"]
    if subprocess.run([*words, "sh", "-c", 'mount -t tmpfs none "$0"', trial.root], stderr=subprocess.DEVNULL).returncode:
        raise Skipped("the system mounts nothing for this user")
    subprocess.run([*words, "sh", "-c", MOUNT, "sh", str(most), trial.root, trial.folder], timeout=6 * SECONDS, check=True)


def end_of(trial, at):
    """How a step ended: its status, and what it printed and said."""
    status, out, err = ((trial.folder / f"{at}.{kind}").read_bytes() for kind in ("status", "out", "err"))
    return int(status), out, err.decode()


@check
def on_a_disk_that_gets_full_a_put_is_a_fault_and_after_recover_a_front_is_there(trial):
    content = trial.random.randbytes(4 * BLOCK)
    (trial.folder / "in").write_bytes(content)
    on_a_disk_of(trial, 8 * BLOCK, f"""head -c {5 * BLOCK + BLOCK // 2} /dev/zero > "$root/other"
it put plfs_copy "$root" put f < in
it again plfs_copy "$root" put f --over < in
it recover plfs "$root" recover f
it get plfs_copy "$root" get f
it check plfs_check "$root"
rm "$root/other"
it over plfs_copy "$root" put f --over < in
it whole plfs_copy "$root" get f
it last plfs_check "$root" """)
    status, out, err = end_of(trial, "put")
    same(f"the end of put ({err!r})", (status, out), (4, b"0 fault\n"))
    true(f"it said {err!r}", err.startswith(f"plfs: {trial.root}/f/hostdir.0/log.0.") and err.endswith(": write: No space left on device (os error 28)\n"))
    same("another put before it is recovered", end_of(trial, "again")[0], 1)
    status, out, err = end_of(trial, "recover")
    same(f"the end of recover ({out!r})", (status, err), (0, ""))
    status, out, err = end_of(trial, "get")
    same(f"the end of get ({err!r})", (status, err), (0, ""))
    true(f"{len(out)} bytes that are no front of whole blocks", out == content[: 2 * BLOCK])
    same("a check of the full disk", end_of(trial, "check"), (0, b"sound\n", ""))
    same("a put where there is room", (end_of(trial, "over")[0], end_of(trial, "over")[2]), (0, ""))
    true("what is got then differs", end_of(trial, "whole") == (0, content, ""))
    same("a check at the end", end_of(trial, "last"), (0, b"sound\n", ""))


@check
def on_a_disk_that_gets_full_what_a_script_told_as_synced_is_there(trial):
    lines = ["actor a", "a open f"]
    for turn in range(40):
        lines += [f"a write {turn * 50_000} fill:50000:{turn + 1}", "a sync"]
    (trial.folder / "script").write_text("\n".join([*lines, "a close", ""]))
    on_a_disk_of(trial, 1_000_000, """it play plfs "$root" play < script
it recover plfs "$root" recover f
it get plfs_copy "$root" get f
it check plfs_check "$root" """)
    status, out, err = end_of(trial, "play")
    true(f"it ended with {status} and {err!r}", status == 4 and "No space left on device" in err)
    synced = max((int(line.split()[2]) for line in out.decode().splitlines() if " synced " in line), default=0)
    true(f"only {synced} writes were synced", synced >= 10)
    status, out, err = end_of(trial, "get")
    same(f"the end of get ({err!r})", (status, err), (0, ""))
    for turn in range(synced):
        true(f"write {turn} differs", out[turn * 50_000 : (turn + 1) * 50_000] == bytes([turn + 1]) * 50_000)
    same("a check of the full disk", end_of(trial, "check"), (0, b"sound\n", ""))
