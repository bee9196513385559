"""ROOT as several folders."""

from trial import READ, WORK, WORKED, check, listed, same, true

# By the sums of their names' bytes f, g and h go to the first, the second and the third of three folders.
THREE = "actor a\n" + "".join(f"a open {name}\na write 0 text:{name}{name}\na sync\na close\n" for name in "fgh")


def made(trial, names="abc"):
    """Makes folders of these names, and returns them, and ROOT of them all."""
    folders = [trial.folder / name for name in names]
    for folder in folders:
        folder.mkdir()
    return folders, ":".join(map(str, folders))


def says(ended, text):
    """Standard error must be this text in one line, behind which the system's number of the reason may stand."""
    true(f"standard error is {ended.err!r}", ended.err.startswith(f"plfs: {text}") and ended.err.count("\n") == 1)


def rooms(folder):
    return sorted(path.name for path in folder.iterdir())


@check
def containers_of_several_folders_lie_where_their_names_say(trial):
    folders, root = made(trial)
    trial.ends(0, THREE, root)
    same("the rooms", [rooms(folder) for folder in folders], [[".plfs", "f"], ["g"], ["h"]])
    for name in "fgh":
        shown = trial.ends(0, f"actor a\na ropen {name}\na read 0 9\n", root).out.splitlines()[1]
        same(f"what is read back of {name}", shown, f"3 read 0 {name.encode().hex() * 2}")


# What a stop left torn is mended; files are told of, cut and renamed beside open readers, and listed.
TORN = (
    "actor a\nactor b\na open f\na write 0 text:A\na write 1 text:B\na write 2 text:C\na stop 2 85\na sync\na close\n"
    "b ropen f\nb read 0 9\nb trunc f 0\nb recover f\nb trunc f 0\nb stat f\n"
)
RENAMED = (
    "actor a\nactor b\na open g\na write 0 text:hi\na close\na open h\na close\nb ropen g\na rename g k\nb read 0 2\nb rclose\n"
    "b ropen g\nb ropen k\na rename k h\na rename k k\na ls\na stat k\na trunc k 1\na stat k\n"
)


@check
def lines_over_several_folders_are_those_over_one(trial):
    _, root = made(trial)
    for script in (WORK, TORN, RENAMED, READ, THREE, "actor a\na read 0 1\na open f\na open f\n", "actor a\na spoil f\n", ""):
        one, several = trial.run(script), trial.run(script, root)
        same(f"the end of {script!r}", (several.status, several.out, several.err), (one.status, one.out, one.err))


@check
def folders_in_another_order_have_the_same_containers(trial):
    folders, root = made(trial)
    trial.ends(0, THREE, root)
    trial.holds(b"ff", ":".join(str(folder) for folder in reversed(folders)))
    same("the rooms", [rooms(folder) for folder in folders], [[".plfs", "f"], ["g"], ["h"]])


@check
def a_folder_among_several_that_is_read_only_is_a_fault_which_names_it(trial):
    folders, root = made(trial)
    trial.ends(0, WORK, root)
    folders[2].chmod(0o500)
    try:
        ended = trial.ends(4, THREE.replace("open f", "open g", 1), root)
    finally:
        folders[2].chmod(0o700)
    same("the last lines", ended.out.splitlines()[-4:], ["10 fault", "11 refused not-open", "12 refused not-open", "13 refused not-open"])
    says(ended, f"{folders[2]}/h: make the folder: Permission denied")
    trial.holds(root=root)


@check
def a_folder_among_several_that_can_not_be_listed_is_a_fault_which_names_it(trial):
    folders, root = made(trial)
    ended = trial.ends(4, WORK, f"{root}:{trial.folder}/away", lines="0 fault\n")
    says(ended, f"{trial.folder}/away: list: No such file or directory")
    folders[1].chmod(0)
    try:
        ended = trial.ends(4, WORK, root, lines="0 fault\n")
    finally:
        folders[1].chmod(0o700)
    says(ended, f"{folders[1]}: list: Permission denied")
    same("the rooms", [rooms(folder) for folder in folders], [[], [], []])


@check
def a_container_in_two_folders_is_damage(trial):
    folders, root = made(trial)
    for folder in folders[1:]:
        for name in ("h", "f"):
            (folder / name).mkdir()
    ended = trial.ends(7, WORK, root, lines="0 damaged f 0\n")
    says(ended, f"{root}: f stands in two of these folders")
    same("the rooms", [rooms(folder) for folder in folders], [[], ["f", "h"], ["f", "h"]])


@check
def one_to_eight_folders_with_names_are_served(trial):
    folders, root = made(trial, "abcdefgh")
    trial.ends(0, WORK, root, lines=WORKED)
    before = [listed(folder) for folder in folders]
    first = str(folders[0])
    for wrong in (f"{root}:{trial.root}", f"{first}:", f":{first}", f"{first}::{folders[1]}", ":"):
        ended = trial.ends(2, WORK, wrong)
        true(f"it printed {ended.out!r}", ended.out.startswith("usage: plfs ROOT "))
    same("the folders", [listed(folder) for folder in folders], before)
    trial.is_untouched()


@check
def damage_in_one_of_several_folders_names_the_line_of_the_script(trial):
    folders, root = made(trial)
    trial.ends(0, THREE, root)
    index = next((folders[1] / "g" / "hostdir.0").glob("index.*"))
    index.write_bytes(bytes(40))
    ended = trial.ends(7, "actor a\na ropen g\na read 0 1\n", root, lines=f"2 damaged hostdir.0/{index.name} 0\n3 refused not-open\n")
    says(ended, f"{root}: line 2: damaged hostdir.0/{index.name} 0: restore it from a copy")


@check
def damage_that_a_command_finds_in_one_of_several_folders_names_it(trial):
    folders, root = made(trial)
    trial.ends(0, THREE, root)
    index = next((folders[1] / "g" / "hostdir.0").glob("index.*"))
    index.write_bytes(bytes(40))
    ended = trial.ends(7, "", root, words=["map", "g"], lines=f"0 damaged hostdir.0/{index.name} 0\n")
    says(ended, f"{folders[1]}/g: damaged hostdir.0/{index.name} 0: restore it from a copy")
