#!/usr/bin/env python3
"""What the documents must keep: short sentences, links that lead somewhere, and the same words as the program.

    tests/documents.py
    tests/documents.py --borders

Prints a line for each fault, and ends with their number, at most 99. It reads files of the repository alone, and needs no
program; tests/run has it as one of its checks. With --borders it prints ARCHITECTURE's table of the inner modules that
other crates cite, as the sources have it."""

import re
import sys
from pathlib import Path

SENTENCE_WORDS, CELL_WORDS = 25, 40
README_WORDS = 1200
INDEX_LINES = 40
LEMMA_FILES = 20
EDITS = 4
# Crates without code whose README tells the theorem, and two whose definitions all laws stand on.
LAWS = ["drain_sound", "mount_losses", "mount_undamaged", "mount_sound", "mount_model"]
# What such a page has: the theorem in words, the tree of lemmas, where to begin.
THEOREM = ["**The theorem", "## The tree of lemmas", "## Where to begin"]


def documents(top):
    """Every page in Markdown that is handed to a reader."""
    pages = [top / name for name in ("README.md", "CONTRIBUTING.md", "CHANGES.md")]
    for folder in ("docs", "bench", "examples", "tests"):
        pages += sorted((top / folder).glob("*.md"))
    return [page for page in pages + sorted(top.glob("crates/*/README.md")) if page.exists()]


def count(text):
    """How many words: what has a letter or a digit in it. A piece of code is one word."""
    text = re.sub(r"``.*?``|`[^`]*`", "code", text)
    text = re.sub(r"!?\[([^\]]*)\]\([^)]*\)", r"\1", text)
    text = re.sub(r"<[^>]*>", " ", text)
    return sum(bool(re.search(r"\w", word)) for word in text.split())


def sentences(text):
    """The sentences of a paragraph. A full stop within a name, a number or a piece of code ends none."""
    code = []
    text = re.sub(r"``.*?``|`[^`]*`", lambda it: code.append(it[0]) or f"code{len(code)}", text)
    parts = re.split(r"(?<=[.!?])[*_)]*\s+|(?<=[.!?]\))\s+|(?<=[.!?]\*\*)\s+", text)
    return [re.sub(r"code(\d+)", lambda it: code[int(it[1]) - 1], part) for part in parts if part.strip()]


def blocks(text):
    """The paragraphs, list items, headings and cells of a page, each with the number of its first line and its kind."""
    found, held, began, fenced = [], [], 0, False

    def close():
        if held:
            found.append((began, "sentence", " ".join(held)))
            held.clear()

    for number, line in enumerate(text.split("\n"), 1):
        if line.lstrip().startswith("```"):
            fenced = not fenced
            close()
        elif fenced:
            continue
        elif re.match(r"\s*\|", line):
            close()
            if not re.fullmatch(r"[\s|:-]*", line):
                cells = re.split(r"(?<!\\)\|", line.strip().strip("|"))
                found += [(number, "cell", cell) for cell in cells]
        elif not line.strip() or line.startswith("    ") and not held or line.startswith("#"):
            close()
        else:
            if re.match(r"\s*(>\s*)?([-*]|\d+\.)\s", line) or line.strip() == ">":
                close()
            if not held:
                began = number
            held.append(re.sub(r"^\s*(>\s*)?([-*]\s|\d+\.\s)?", "", line))
    close()
    return found


def long_ones(top):
    for page in documents(top):
        for number, kind, text in blocks(page.read_text()):
            for one in [text] if kind == "cell" else sentences(text):
                if count(one) > (CELL_WORDS if kind == "cell" else SENTENCE_WORDS):
                    yield f"{page.relative_to(top)}:{number}: a {kind} of {count(one)} words: {one.strip()[:60]} .."


def long_first_page(top):
    words = sum(bool(re.search(r"\w", word)) for word in (top / "README.md").read_text().split())
    if words > README_WORDS:
        yield f"README.md: {words} words, and at most {README_WORDS} are wanted"


def plain(page):
    """The text of the manual without what lays it out: a font, a heading, a quoted word."""
    lines = []
    for line in page.split("\n"):
        line = re.sub(r"\\c$|\\&", "", line).replace("\\-", "-").replace("\\en", "\\n")
        if re.match(r"\.(SH|SS|TP|PP|nf|fi|RS|RE|br|TH)\b", line):
            lines.append("\n" + (line if line.startswith(".S") else ""))
        elif match := re.match(r"\.[BIR]{1,2} (.*)", line):
            lines.append(match[1].replace('"', ""))
        else:
            lines.append(line)
    return "\n".join(lines)


def long_manual(top):
    page = re.sub(r"^\.nf\n.*?^\.fi$", "", (top / "docs" / "plfs.1").read_text(), flags=re.M | re.S)
    for block in re.split(r"\n\s*\n", plain(re.sub(r"^\.S[HS] .*$", ".PP", page, flags=re.M))):
        for one in sentences(" ".join(block.split())):
            if count(one) > SENTENCE_WORDS:
                yield f"docs/plfs.1: a sentence of {count(one)} words: {one[:60]} .."


def anchors(page):
    """The places of a page that a link may name."""
    text = page.read_text()
    found = set(re.findall(r'<a id="([^"]+)">', text))
    for head in re.findall(r"^#+ (.*)$", re.sub(r"^```.*?^```", "", text, flags=re.M | re.S), re.M):
        found.add(re.sub(r"[^\w\- ]", "", head.lower()).replace(" ", "-"))
    return found


def broken_links(top):
    for page in documents(top):
        text = re.sub(r"^```.*?^```", "", page.read_text(), flags=re.M | re.S)
        for target in re.findall(r"\]\(([^)\s]+)\)", text):
            if re.match(r"https?:", target):
                continue
            path, _, place = target.partition("#")
            file = (page.parent / path).resolve() if path else page
            if not file.exists():
                yield f"{page.relative_to(top)}: the link {target} leads nowhere"
            elif place and file.suffix == ".md" and place not in anchors(file):
                yield f"{page.relative_to(top)}: the link {target} names no place of that page"


def misnamed_promises(top):
    """A promise has one name, which its row shows and each link to it."""
    page = top / "docs" / "PROMISES.md"
    rows = re.findall(r'<a id="([^"]+)"></a>(\w+)', page.read_text())
    for place, name in rows:
        if name.lower() != place or [it for it, _ in rows].count(place) > 1:
            yield f"docs/PROMISES.md: the row {name} has the place {place}, or it stands twice"
    for other in documents(top):
        for name, place in re.findall(r"\[([A-Z]+\d+)\]\([^)\s]*#(\w+)\)", other.read_text()):
            if name.lower() != place:
                yield f"{other.relative_to(top)}: a link to {place} shows {name}"


def defines(text, name, is_code):
    """Whether the text of a file defines what has this name: a function or a type of code, else a definition of specs."""
    if is_code:
        return re.search(rf"\b(fn|struct|enum|trait|type|const) {name}\b", text)
    return re.search(rf"^\s*(abbrev|data|record|pub data|pub record) (pub )?{name}\b", text, re.M)


def has_label(text, label, is_code):
    """Whether the text of a file has a clause, a field or a case of this name."""
    return re.search(rf"\b(ensures|ghost) {label}\b" if is_code else rf"^\s*(pub )?{label}\b.*:", text, re.M)


def unclaused_promises(top):
    """What a row of PROMISES links to stands in that file, with the clauses or fields that the row names behind the link."""
    page = top / "docs" / "PROMISES.md"
    for place, cell in re.findall(r'^\| (?:<a id="(\w+)"></a>)?[^|]*\|[^|]*\| (.*) \|$', page.read_text(), re.M):
        for name, path, labels in re.findall(r"\[`([\w:]+)`\]\(([^)#]+)\)(?: \(([^)]*)\))?", cell):
            file = page.parent / path
            if not file.exists():
                continue
            text, is_code = file.read_text(), file.suffix == ".rt"
            if not defines(text, name.split("::")[-1], is_code):
                yield f"docs/PROMISES.md: the row {place} links to {name} in {path}, which has it not"
            for label in re.findall(r"`(\w+)`", labels):
                if not has_label(text, label, is_code):
                    yield f"docs/PROMISES.md: the row {place} names {label} of {name}, which {path} has not"


def crates(top):
    rows = [line.partition("#")[0] for line in (top / "crates.txt").read_text().split("\n")]
    return [re.match(r"\w+", row)[0] for row in rows if ":" in row]


def untold_crates(top):
    text = (top / "docs" / "ARCHITECTURE.md").read_text()
    told = re.findall(r"^\| `(\w+)` \|", text, re.M)
    for crate in crates(top):
        if told.count(crate) != 1:
            yield f"docs/ARCHITECTURE.md: the crate {crate} has {told.count(crate)} rows, and one is wanted"
    for crate in set(told) - set(crates(top)):
        yield f"docs/ARCHITECTURE.md: {crate} is no crate of crates.txt"


def borders(top):
    """The modules of a crate's proofs, other than Facts, that other crates cite: (crate, module) and who cites it.

    A module in a folder of a topic is named with it, as Moments.Issuing."""
    known, found = set(crates(top)), {}
    for part in ("src", "specs", "proofs"):
        for file in (top / "crates").glob(f"*/{part}/**/*"):
            if file.suffix in (".rt", ".antt"):
                citing = file.relative_to(top).parts[1]
                for crate, module, inner in re.findall(r"\buse Rattle\.(\w+)\.proofs\.(\w+)(?:\.(\w+))?", file.read_text()):
                    if crate in known and crate != citing and module != "Facts":
                        if (top / "crates" / crate / "proofs" / module / f"{inner}.antt").exists():
                            module = f"{module}.{inner}"
                        found.setdefault((crate, module), set()).add(citing)
    return found


def border_rows(top):
    """The rows of ARCHITECTURE's table: the modules of a crate that the same crates cite stand in one row."""
    rows = {}
    for (crate, module), citing in borders(top).items():
        rows.setdefault((crate, tuple(sorted(citing))), []).append(module)
    listed = lambda names: ", ".join(f"`{name}`" for name in sorted(names))
    return [f"| {crate} | {listed(modules)} | {listed(citing)} |" for (crate, citing), modules in sorted(rows.items())]


def untold_borders(top):
    text = (top / "docs" / "ARCHITECTURE.md").read_text()
    told = text.split("| Crate | Modules | Cited by |\n|---|---|---|\n")[1].split("\n\n")[0].strip().split("\n")
    wanted = border_rows(top)
    for row in wanted:
        if row not in told:
            yield f"docs/ARCHITECTURE.md: the table of inner modules lacks the row {row}"
    for row in told:
        if row not in wanted:
            yield f"docs/ARCHITECTURE.md: the table of inner modules has a row that the sources don't have: {row}"


def laws(top):
    """Each public law: a function without parameters and with an empty body, whose contract is the law."""
    for file in sorted(top.glob("crates/*/src/**/*.rt")):
        for name in re.findall(r"^pub fn (\w+)(?:<[^\n]*>)?\(\)\n(?:(?:[ ].*)?\n)+?\{\}", file.read_text(), re.M):
            yield file.relative_to(top).parts[1], name


def untold_laws(top):
    text = (top / "docs" / "PROMISES.md").read_text()
    for crate, name in laws(top):
        if not re.search(rf"\b{name}\b", text):
            yield f"docs/PROMISES.md: the law {crate}::{name} is named nowhere"


def untold_theorems(top):
    for crate in crates(top):
        if crate.endswith("_laws") or crate in LAWS:
            page = top / "crates" / crate / "README.md"
            if not page.exists():
                yield f"crates/{crate}: there is no README.md"
            else:
                yield from (f"crates/{crate}/README.md: it lacks {part}" for part in THEOREM if part not in page.read_text())
    for page in top.glob("crates/*/README.md"):
        text = page.read_text()
        crate = page.parent.name
        for owner, name in laws(top):
            if owner == crate and not re.search(rf"\b{name}\b", text):
                yield f"crates/{crate}/README.md: the law {name} is named nowhere"
        for file in re.findall(r"`((?:proofs|specs)/[\w/]+)`", text):
            if not any((page.parent / f"{file}{end}").exists() for end in (".antt", "")):
                yield f"crates/{crate}/README.md: there is no {file}"


def strayed_names(top):
    """What a crate's page links to by its name stands in that file."""
    for page in sorted(top.glob("crates/*/README.md")):
        for name, path in re.findall(r"\[`(\w+)`\]\(((?:src|specs)/[\w/]+\.(?:rt|antt))\)", page.read_text()):
            file = page.parent / path
            if file.exists() and not defines(file.read_text(), name, file.suffix == ".rt"):
                yield f"{page.relative_to(top)}: it links to {name} in {path}, which has it not"


def crowded_proofs(top):
    """Lemma files stand in folders by topic where they are many: those of proofs/, and those of each topic."""
    for proofs in sorted(top.glob("crates/*/proofs")):
        for folder in [proofs] + sorted(it for it in proofs.iterdir() if it.is_dir() and it.name[0].isupper()):
            files = [it for it in folder.glob("*.antt") if it.name != "Lib.antt" and not it.with_suffix("").is_dir()]
            if len(files) > LEMMA_FILES:
                yield f"{folder.relative_to(top)}: {len(files)} files of lemmas side by side, and at most {LEMMA_FILES} are wanted"


def crowded_edits(top):
    for folder in sorted(top.glob("crates/*/must-fail")):
        edits = list(folder.glob("*.edit"))
        if len(edits) > EDITS:
            yield f"{folder.relative_to(top)}: {len(edits)} edits that the gate tries, and at most {EDITS} are wanted"


def unlisted_questions(top):
    """The list at the head of DECISIONS has each question, in the order of the page."""
    text = (top / "docs" / "DECISIONS.md").read_text()
    asked, listed = re.findall(r"^## (.*)$", text, re.M), re.findall(r"^- \[([^\]]+)\]\(#", text, re.M)
    if asked != listed:
        yield f"docs/DECISIONS.md: its list and its questions differ in {', '.join(sorted(set(asked) ^ set(listed))) or 'their order'}"


def dead_names(top):
    """A function or a definition that a page names with its crate has to stand there."""
    texts = {}
    for page in documents(top):
        for crate, path in set(re.findall(r"`([a-z]\w+)::([\w:]+)`", page.read_text())):
            if crate in crates(top):
                if crate not in texts:
                    files = [file for part in ("src", "specs") for file in (top / "crates" / crate / part).rglob("*") if file.suffix in (".rt", ".antt")]
                    texts[crate] = "\n".join(file.read_text() for file in files)
                if not all(re.search(rf"\b{name}\b", texts[crate]) for name in path.split("::")):
                    yield f"{page.relative_to(top)}: {crate} has no {path}"


def long_index(top):
    index = (top / "docs" / "PROMISES.md").read_text().split("\n## ")[1]
    lines = len(re.findall(r"^- ", index, re.M))
    if not index.startswith("Index") or lines > INDEX_LINES:
        yield f"docs/PROMISES.md: the index has {lines} lines, and at most {INDEX_LINES} are wanted"


def glossary(top):
    words = re.findall(r"^\| \*\*(.+?)\*\* \|", (top / "docs" / "WORDS.md").read_text(), re.M)
    for word in sorted({it for it in words if words.count(it) > 1}):
        yield f"docs/WORDS.md: {word} stands twice"
    if words != sorted(words, key=str.lower):
        yield "docs/WORDS.md: the words are not in order"


def section(text, name):
    return text.split(f".SH {name}\n")[1].split("\n.SH ")[0]


def told_commands(top):
    """The commands that each paper tells, by the name of the paper."""
    readme = (top / "README.md").read_text()
    script = (top / "plfs").read_text()
    synopsis = plain(section((top / "docs" / "plfs.1").read_text(), "SYNOPSIS"))
    helped = re.search(r"^usage:.*?\n\n", script, re.M | re.S)[0]
    course = (top / "crates/program_ends/specs/Usage.antt").read_text()
    usage = re.search(r'usage: plfs ROOT ([^"\\]*)', course)[1]
    usage += re.search(r'b"(\|[^"\\]*)', (top / "crates/plfs/src/telling.rt").read_text())[1]
    table = readme.split("\n## Commands\n")[1].split("\n## ")[0]
    spoken = re.sub(r"\b(ROOT|SCRIPT|NAME|SIZE|OLD|NEW|N|plfs|usage|br)\b|--\w+", " ", helped)
    told = {
        "the program's usage line": re.split(r"\|", re.sub(r" [A-Z ]+", "", usage)),
        "README.md": re.findall(r"^\| `([a-z]+)", table, re.M),
        "--help": re.findall(r"[a-z]+", spoken),
        "the manual": re.findall(r"\b[a-z]+\b", re.sub(r"\b(plfs|br)\b|--\w+", " ", synopsis)),
    }
    for file in sorted((top / "completions").iterdir()):
        text = file.read_text()
        words = re.findall(r"\b[a-z]+\b", " ".join(line for line in text.split("\n") if "migrate" in line or "rename" in line))
        told[f"completions/{file.name}"] = words
    return told


def differing_commands(top):
    told = told_commands(top)
    wanted = sorted(set(told["the program's usage line"]))
    for paper, words in told.items():
        text = set(words)
        missing = [word for word in wanted if word not in text]
        if paper.startswith("completions/"):
            whole = (top / paper).read_text()
            missing = [word for word in wanted if not re.search(rf"\b{word}\b", whole)]
            text = set(wanted)
        for word in missing:
            yield f"{paper} lacks the command {word}"
        for word in sorted(text - set(wanted)):
            yield f"{paper} has the command {word}, which the program lacks"


def differing_options(top):
    script = (top / "plfs").read_text()
    wanted = re.findall(r"^    (--\w+)\)$", script, re.M)
    manual = (top / "docs" / "plfs.1").read_text()
    parts = {"the manual's SYNOPSIS": section(manual, "SYNOPSIS"), "the manual's Options": manual.split(".SS Options\n")[1].split("\n.SH ")[0]}
    for paper in ["README.md"] + [f"completions/{file.name}" for file in sorted((top / "completions").iterdir())]:
        parts[paper] = (top / paper).read_text()
    for paper, text in parts.items():
        text = text.replace("\\-", "-")
        found = set(re.findall(r"--[a-z]+\b", text)) | {f"--{it}" for it in re.findall(r"-l (\w+)", text) if paper.endswith(".fish")}
        for option in wanted:
            if option not in found:
                yield f"{paper} lacks the option {option}"
    helped = re.search(r"cat <<'END'\n(.*?)^END$", script, re.M | re.S)[1]
    for option in set(re.findall(r"--[a-z]+\b", helped)) ^ set(wanted):
        yield f"--help and the options that the script serves differ in {option}"


def differing_versions(top):
    version = re.search(r"^version=(\S+)$", (top / "plfs").read_text(), re.M)[1]
    manual = re.search(r'^\.TH PLFS 1 \S+ "?Rigtolai (\S+?)"? ', (top / "docs" / "plfs.1").read_text(), re.M)
    changes = re.search(r"^## ([\d.]+\d)", (top / "CHANGES.md").read_text(), re.M)
    for paper, found in (("docs/plfs.1", manual), ("CHANGES.md", changes)):
        if not found or found[1] != version:
            yield f"{paper} is of the version {found and found[1]}, and ./plfs --version tells {version}"


RULES = [long_ones, long_first_page, long_manual, broken_links, misnamed_promises, unclaused_promises, untold_crates, untold_borders, untold_laws, untold_theorems,
         strayed_names, crowded_proofs, crowded_edits, unlisted_questions, dead_names, long_index, glossary,
         differing_commands, differing_options, differing_versions]


def faults(top):
    """All faults of the documents of the repository at this place, a line each."""
    return [fault for rule in RULES for fault in rule(Path(top))]


if __name__ == "__main__":
    if sys.argv[1:] == ["--borders"]:
        print("\n".join(border_rows(Path(__file__).resolve().parent.parent)))
        sys.exit(0)
    found = faults(Path(__file__).resolve().parent.parent)
    for fault in found:
        print(f"documents: {fault}")
    print(f"documents: {len(found)} faults")
    sys.exit(min(len(found), 99))
