"""What the documents show of the program is what it does."""

import re
import shutil
import subprocess

from trial import check, masked, same, true


@check
def the_examples_print_their_lines(trial):
    scripts = sorted((trial.top / "examples").glob("*.plfs"))
    true("there is no example", scripts)
    for script in scripts:
        root = trial.folder / script.stem
        root.mkdir()
        ended = trial.ends(0, script.read_text(), root)
        same(script.name, ended.out, masked(script.with_suffix(".out").read_text()))


@check
def the_first_script_of_the_page_on_scripts_prints_what_the_page_shows(trial):
    blocks = re.findall(r"^```\n(.*?)^```", (trial.top / "docs" / "SCRIPTS.md").read_text(), re.M | re.S)
    true("the page has no script with its lines", len(blocks) > 1 and blocks[0].startswith("actor "))
    trial.ends(0, blocks[0], lines=masked(blocks[1]))


@check
def the_first_page_shows_the_lines_of_the_first_example(trial):
    page = masked((trial.top / "README.md").read_text())
    for name in ("hello.plfs", "hello.out"):
        true(f"README.md shows another {name}", masked((trial.top / "examples" / name).read_text()) in page)


@check
def a_file_of_ones_own_goes_in_and_comes_out_as_the_first_page_shows(trial):
    """The page's commands, with the program and the folder of this check in the place of those that it names."""
    blocks = re.findall(r"^```\n(.*?)^```", (trial.top / "README.md").read_text(), re.M | re.S)
    commands = [block for block in blocks if "plfs_copy" in block]
    true("README.md shows no file of one's own", len(commands) == 1)
    (trial.folder / "data").write_bytes(trial.random.randbytes(1_200_000))
    copying = f"bash -c 'exec -a plfs_copy \"$0\" \"$@\"' '{trial.program}'"
    text = commands[0].replace("./plfs_copy", copying).replace("/tmp/store", f"'{trial.root}'")
    how = {"stdout": subprocess.PIPE, "stderr": subprocess.PIPE, "text": True, "timeout": 20, "cwd": trial.folder}
    ended = subprocess.run(["bash", "-c", "set -e -o pipefail\n" + text], **how)
    wanted = (0, f"put 1200000 {2**32 + 1}\n", "")
    same("what the commands say", (ended.returncode, ended.stdout, ended.stderr), wanted)


@check
def the_documents_keep_their_rules(trial):
    """What documents.py finds in the repository, which this check doesn't see."""
    same("what is wrong with the documents", (trial.top / "documents.faults").read_text(), "")


@check
def the_manual_is_well_formed_and_has_each_status_and_word(trial):
    page = trial.top / "docs" / "plfs.1"
    text = page.read_text()
    statuses = text.partition('.SH "EXIT STATUS"')[2].partition(".SH DIAGNOSTICS")[0]
    for status in (*range(8), 70):
        true(f"the manual lacks the status {status}", re.search(rf"^\.(B|TP\n\.B) {status}$", statuses, re.M))
    if shutil.which("man") is None:
        return
    how = {"stdout": subprocess.DEVNULL, "stderr": subprocess.PIPE, "text": True}
    words = ["man", "--warnings", "-E", "UTF-8", "-l", "-Tutf8", "-Z", str(page)]
    same("what man says of it", subprocess.run(words, **how).stderr, "")


@check
def the_manual_of_plfs_copy_its_help_and_completions_have_the_words_of_its_usage_line(trial):
    usage = subprocess.run(["plfs_copy"], executable=trial.program, stdout=subprocess.PIPE, text=True, timeout=20).stdout
    true(f"the usage line is {usage!r}", usage.startswith("usage: plfs_copy ROOT "))
    known = [it.split()[0] for it in usage.removeprefix("usage: plfs_copy ROOT ").split("|")]
    text = (trial.top / "docs" / "plfs_copy.1").read_text()
    for status in range(8):
        true(f"the manual lacks the status {status}", re.search(rf"^\.B {status}$", text.partition('.SH "EXIT STATUS"')[2], re.M))
    helped = subprocess.run([trial.top / "plfs_copy", "--help"], stdout=subprocess.PIPE, text=True, timeout=20).stdout
    for word in known:
        true(f"--help lacks {word}", f"plfs_copy ROOT {word} " in helped)
        true(f"the manual lacks {word}", re.search(rf"^\.B {word}$", text.partition("DESCRIPTION")[0], re.M))
    for shell in ("bash", "zsh", "fish"):
        true(f"plfs.{shell} has other words", " ".join(known) in (trial.top / "completions" / f"plfs.{shell}").read_text())
    if shutil.which("man"):
        how = {"stdout": subprocess.DEVNULL, "stderr": subprocess.PIPE, "text": True}
        words = ["man", "--warnings", "-E", "UTF-8", "-l", "-Tutf8", "-Z", str(trial.top / "docs" / "plfs_copy.1")]
        same("what man says of it", subprocess.run(words, **how).stderr, "")


@check
def the_manual_of_plfs_serve_its_help_and_completions_have_its_words(trial):
    usage = subprocess.run(["plfs_serve"], executable=trial.program, stdout=subprocess.PIPE, text=True, timeout=20).stdout
    same("the usage line", usage, "usage: plfs_serve ROOT [--at FOLDER] [HOST]\n")
    helped = subprocess.run([trial.top / "plfs_serve", "--help"], stdout=subprocess.PIPE, text=True, timeout=20).stdout
    true("--help has another usage line", helped.startswith(usage))
    page = trial.top / "docs" / "plfs_serve.1"
    for status in range(8):
        true(f"the manual lacks the status {status}", re.search(rf"^\.B {status}$", page.read_text().partition('.SH "EXIT STATUS"')[2], re.M))
    true("the manual lacks --at", re.search(r"^\.B.*\\-\\-at", page.read_text(), re.M) is not None)
    for shell in ("bash", "zsh", "fish"):
        text = (trial.top / "completions" / f"plfs.{shell}").read_text()
        true(f"plfs.{shell} lacks plfs_serve or --at", "plfs_check plfs_serve" in text and re.search(r"--at|-l at", text) is not None)
    if shutil.which("man"):
        how = {"stdout": subprocess.DEVNULL, "stderr": subprocess.PIPE, "text": True}
        words = ["man", "--warnings", "-E", "UTF-8", "-l", "-Tutf8", "-Z", str(page)]
        same("what man says of it", subprocess.run(words, **how).stderr, "")


def commands(trial):
    """The commands of the usage line, in its order."""
    usage = trial.run("", words=()).out
    true(f"the usage line is {usage!r}", usage.startswith("usage: plfs ROOT "))
    return [it.split()[0] for it in usage.removeprefix("usage: plfs ROOT ").split("|")]


@check
def the_help_and_the_manual_have_the_commands_of_the_usage_line(trial):
    helped = subprocess.run([trial.top / "plfs", "--help"], stdout=subprocess.PIPE, text=True, timeout=20).stdout
    page = (trial.top / "docs" / "plfs.1").read_text()
    for word in commands(trial):
        true(f"--help lacks {word}", re.search(rf"plfs ROOT (\S+\|)*{word}\b", helped))
        true(f"the manual lacks {word}", re.search(rf"\b{word}\b", page.partition("DESCRIPTION")[0]))


def asked(words, **how):
    """What these words print."""
    how = {"stdout": subprocess.PIPE, "stderr": subprocess.STDOUT, "text": True, "timeout": 20, **how}
    return subprocess.run(words, **how).stdout.splitlines()


@check
def completion_offers_the_commands_of_the_usage_line_and_folders(trial):
    file = trial.top / "completions" / "plfs.bash"
    (trial.folder / "store").mkdir()
    for words, wanted in (("/tmp ''", commands(trial)), ("/tmp : sto", ["store"]), ("/tmp : store pl", ["play"]), ("-", ["--help", "--version"])):
        last = words.count(" ") + 1
        script = f"source '{file}'; COMP_WORDS=(plfs {words}); COMP_CWORD={last}; _plfs; printf '%s\\n' \"${{COMPREPLY[@]}}\""
        same(f"what is offered behind {words}", asked(["bash", "-c", script], cwd=trial.folder), wanted)


# The functions of zsh's completion, as far as the file calls them.
ZSH = """
compdef() { print -r -- "$@" }
compadd() { shift; print -rl -- ${(M)@:#$PREFIX*} }
compset() { PREFIX=${PREFIX##*:} }
_files() { print -r -- "$@" $PREFIX }
"""


@check
def completion_for_other_shells_offers_the_same(trial):
    known = commands(trial)
    for shell in ("zsh", "fish"):
        text = (trial.top / "completions" / f"plfs.{shell}").read_text()
        true(f"plfs.{shell} has other commands", " ".join(known) in text)
        true(f"plfs.{shell} has other options", all(re.search(rf"(--|-l ){it}\b", text) for it in ("help", "version")))
    (trial.folder / "store").mkdir()
    if shutil.which("zsh"):
        calls = [f"CURRENT={number} PREFIX={word} _plfs" for number, word in ((2, "--h"), (2, "/tmp:sto"), (3, "r"), (4, ""))]
        script = "\n".join([ZSH, f"source '{trial.top}/completions/plfs.zsh'", *calls])
        same("what zsh offers", asked(["zsh", "-f", "-c", script]), ["_plfs plfs plfs_copy plfs_check plfs_serve", "--help", "-/ sto", *[it for it in known if it[0] == "r"]])
    if shutil.which("fish"):
        for words, wanted in (("sto", ["store/"]), ("/tmp:sto", ["/tmp:store/"]), ("--", ["--help", "--version"]), ("/tmp ", sorted(known)), ("/tmp play ", [])):
            script = f"source '{trial.top}/completions/plfs.fish'; complete -C 'plfs {words}'"
            offered = [it.split("\t")[0] for it in asked(["fish", "--no-config", "-c", script], cwd=trial.folder)]
            same(f"what fish offers behind {words}", offered, wanted)
