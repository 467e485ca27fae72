#!/usr/bin/env python3
"""What .ci/documents asks of the documents, a line for each check: where it stands, what is checked, and what is wrong with it, if anything.
Usage: .ci/documents.py links | names | bodies | manuals | above, at the top of the repository"""

import functools
import pathlib
import re
import subprocess
import sys

CRATE = r"(?:sa|tests|toga)_[a-z0-9_]*[a-z0-9]"
ITEM = r"(?:fn|struct|enum|trait|type|const|static|mod|union)"
PAGES = sorted([pathlib.Path("README.md"), pathlib.Path("CHANGELOG.md"), *pathlib.Path("docs").glob("*.md"), *pathlib.Path("examples").rglob("*.md")])


def anchors(page):
    """Returns the anchors of a page's headings."""
    heads = re.findall(r"^#+ (.*)$", page.read_text(), re.M)
    return {re.sub(r"[^\w\- ]", "", it.lower()).replace(" ", "-") for it in heads}


def links():
    """Prints the links of the documents: the page, the link, and what is wrong with it, if anything."""
    for page in PAGES:
        for link in re.findall(r"\]\(([^)\s]+)\)", page.read_text()):
            if "://" in link:
                continue
            path, _, anchor = link.partition("#")
            to = page.parent / path if path else page
            wrong = "" if to.exists() else "no such file"
            if not wrong and anchor and anchor not in anchors(to):
                wrong = "no such heading"
            print(page, link, wrong)


@functools.cache
def sources(crate):
    """Returns the texts of a crate's Rust files."""
    return [it.read_text() for it in sorted(pathlib.Path("crates", crate, "src").rglob("*.rt"))]


@functools.cache
def blocks(crate, name):
    """Returns the texts of what a type, a trait or a module has inside: of its own declaration, and of its impls."""
    head = rf"^(?:pub(?:\([^)]*\))? )?(?:unsafe )?(?:(?:struct|enum|trait|mod) {name}\b|impl\b[^\n]*?\b{name}\b)[^;]*?\{{\n(.*?)^\}}"
    return [it for text in sources(crate) for it in re.findall(head, text, re.M | re.S)]


def declares(text, name):
    """Tells whether the text declares an item or a variant of this name, or passes it on from a crate or a module below."""
    passed = (it for it in re.findall(r"^\s*pub(?:\([^)]*\))? use ([^;]*);", text, re.M))
    return bool(re.search(rf"\b{ITEM} {name}\b|^\s+{name}\b *[,({{=]", text, re.M)) or any(re.search(rf"\b{name}\b", it) for it in passed)


def module(crate, path):
    """Returns the texts of a crate's module, or none."""
    base = pathlib.Path("crates", crate, "src", *path)
    files = [base / "lib.rt", base / "main.rt", base / "mod.rt", base.with_suffix(".rt")]
    return [it.read_text() for it in files if it.is_file()]


def defined(crate, part, path):
    """Tells whether the part, specs or proofs, has such a module, or such a name in a module."""
    top = pathlib.Path("crates", crate, part)
    if top.joinpath(*path).with_suffix(".antt").is_file():
        return True
    file = top.joinpath(*path[:-1]).with_suffix(".antt")
    return len(path) > 1 and file.is_file() and bool(re.search(rf"^ *(?:\w+ )*{re.escape(path[-1])} [:(\[{{]", file.read_text(), re.M))


def has_item(crate, path):
    """Tells whether the crate has an item at this path."""
    if path[0] in ("specs", "proofs"):
        return defined(crate, path[0], path[1:])
    upper, name = path[:-1], path[-1]
    texts = module(crate, upper) or (blocks(crate, upper[-1]) if upper and has_item(crate, upper) else [])
    return any(declares(it, name) for it in texts)


def problem(name):
    """Returns what is wrong with the name of a crate, an item or a definition."""
    crate, *path = re.split(r"::|\.", name)
    if not pathlib.Path("crates", crate).is_dir():
        return "no such crate"
    if not path:
        return ""
    found = has_item(crate, path) if "::" in name else defined(crate, "specs", path)
    return "" if found else "no such name"


def body(folder, name):
    """Returns what is wrong with the name of a wrong body."""
    places = [pathlib.Path("crates", folder, "must-fail"), pathlib.Path("wrong-bodies", folder)]
    return "" if any((it / f"{name}{end}").is_file() for it in places for end in (".edit", ".patch")) else "no such wrong body"


def quoted_names(page):
    """Gives the names of a page, each as its folder and its name if it is a wrong body's, and else as no folder and the name. A name is a crate's; an
    item's, as sa_run::run or sa_seat::Held::turn; a definition's, as sa_laws.Step.Needs; or a wrong body's, as sa_seat/every_burst_is_dropped, after
    which the other ones of its cell go without their crate."""
    for cell in re.split(r"\n\n|\|", page.read_text()):
        folder = ""
        for quoted in re.findall(r"`([^`\n]+)`", cell):
            if found := re.fullmatch(rf"((?:above/)?{CRATE})/(\w+)", quoted):
                folder = found[1]
                yield folder, found[2]
            elif folder and re.fullmatch(r"[a-z0-9]+(_[a-z0-9]+)+", quoted) and not re.fullmatch(CRATE, quoted):
                yield folder, quoted
            elif re.fullmatch(rf"{CRATE}(?:(?:::|\.)\w+)*", quoted):
                yield "", quoted


def names():
    """Prints the names of the documents: the page, the name, and what is wrong with it, if anything."""
    for page in PAGES:
        for folder, name in quoted_names(page):
            print(page, f"{folder}/{name}" if folder else name, body(folder, name) if folder else problem(name))


def unfit(file, crate):
    """Returns why the file cannot be laid into the crate: an old text that is not in its file once, or a patch that does not apply."""
    if not crate.is_dir():
        return "no such crate"
    if file.suffix == ".patch":
        folder = "crates" if re.search(rf"^--- a/{CRATE}/", file.read_text(), re.M) else crate
        with file.open() as patch:
            tried = subprocess.run(["patch", "--dry-run", "-s", "-f", "-p1", "-d", folder], stdin=patch, stdout=subprocess.PIPE, text=True, check=False)
        return "" if tried.returncode == 0 else " ".join(tried.stdout.split())
    texts, path, old, pairs = {}, "", "", 0
    for line in file.read_text().split("\n"):
        kind, _, text = line.partition(": ")
        if kind == "file":
            path = text.strip()
            if not (crate / path).is_file():
                return f"no file {path}"
            texts.setdefault(path, (crate / path).read_text())
        elif kind == "old":
            old = text
        elif line.startswith("new:"):
            if texts.get(path, "").count(old) != 1:
                return f"its text number {pairs + 1} is in {path or 'no file'} {texts.get(path, '').count(old)} times"
            texts[path] = texts[path].replace(old, text)
            pairs += 1
    return "" if pairs else "it changes nothing"


def unsaid(file, shown):
    """Returns why nobody can read what the file gets wrong: of the gate's wrong-bodies/gate says it, and the others say it in their first line."""
    if file.parent.name == "must-fail":
        return "" if (file.parent.parent.name, file.stem) in shown else "wrong-bodies/gate does not say what it gets wrong"
    return "" if re.match(r"says: [A-Z`\"].*\.\n", file.read_text()) else "its first line does not say what it gets wrong"


def bodies():
    """Prints the wrong bodies: the file, and why it cannot be laid into its crate or nothing says what it gets wrong, if so; and each folder of them,
    and whether WHEN says another number."""
    shown = set(re.findall(r"^(\w+)/(\w+): [A-Z].*[.]$", pathlib.Path("wrong-bodies/gate").read_text(), re.M))
    said = {}
    entry = r"^(\S+)(?:, by .*:\n)? +\S+ +\S+ +(\d+) tried.*?(?:(\d+) not yet)?$"
    for folder, tried, later in re.findall(entry, pathlib.Path("wrong-bodies/WHEN").read_text(), re.M):
        said[folder] = str(int(tried) + int(later or 0))
    others = [it for it in pathlib.Path("wrong-bodies").iterdir() if it.is_dir() and it.name != "above"]
    places = [*pathlib.Path("crates").glob("*/must-fail"), *others, *pathlib.Path("wrong-bodies/above").glob("*")]
    for place in sorted(places):
        crate = place.parent if place.name == "must-fail" else pathlib.Path("crates", place.name)
        files = sorted(it for it in place.iterdir() if it.suffix in (".edit", ".patch"))
        for file in files:
            print(file, unfit(file, crate) or unsaid(file, shown))
        folder = place.relative_to("wrong-bodies").as_posix() if place.name != "must-fail" else ""
        if folder:
            print(place, "" if said.pop(folder, "no") == str(len(files)) else f"it has {len(files)}, and WHEN does not say so")
    for crate, name in shown:
        print(f"wrong-bodies/gate:{crate}/{name}", body(crate, name))
    for folder in said:
        print(f"wrong-bodies/{folder}", "it has none, and WHEN says so")


def manuals():
    """Prints the words of the man pages, with tabs between: the page, a word of the document that has its program's words, and what is wrong with it,
    if anything."""
    for page, document in ("sa", "WORDS"), ("sa_picture", "PICTURES"):
        part = pathlib.Path(f"docs/{document}.md").read_text()
        text = pathlib.Path(f"docs/{page}.1").read_text().replace("\\-", "-")
        commands = re.findall(r"^\| `([a-z]+)(?: N)?` \| (?:a workload|nothing)", part, re.M)
        options = re.findall(r"^\| `(--[a-z]+) ", part, re.M)
        statuses = re.findall(r"^\| (\d+) \|", part[part.index("| Exit status |") :].split("\n\n")[0], re.M)
        heads = {"command": commands, "option": options, "status": statuses}
        for kind, words in heads.items():
            for word in words:
                found = re.search(rf'^\.BI? "?{word}(?: "?|$)', text, re.M)
                print(f"docs/{page}.1", f"{kind} {word}", "" if found else "is not there", sep="\t")
        for word in sorted(set(re.findall(r"--[a-z]+", text)) - set(options)):
            print(f"docs/{page}.1", f"option {word}", f"is not in {document}", sep="\t")


def standing_on(crate, below):
    """Returns the crate and all that stand on it, of crates with what is below each."""
    found, more = set(), {crate}
    while more:
        found |= more
        more = {it for it, names in below.items() if found.intersection(names)} - found
    return found


def above():
    """Prints the crates of which CHANGING says how many stand on them: the page, the crate, and what is wrong with the number, if anything."""
    crates = re.findall(r"^(\w+)[^:#\n]*:(.*)$", pathlib.Path("crates.txt").read_text(), re.M)
    below = {name: names.split() for name, names in crates}
    page = pathlib.Path("docs/CHANGING.md")
    total, said = re.search(r"of (\d+) crates ([^.]*)\.", page.read_text()).groups()
    print(page, "all", "" if int(total) == len(below) else f"there are {len(below)} crates")
    for number, crate in re.findall(r"(\d+) for\s+`(\w+)`", said):
        count = len(standing_on(crate, below))
        print(page, crate, "" if int(number) == count else f"there are {count} on it")


{"links": links, "names": names, "bodies": bodies, "manuals": manuals, "above": above}[sys.argv[1]]()
