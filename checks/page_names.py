#!/usr/bin/env python3
"""Looks up each name that the pages cite: calls, clauses and definitions of docs/PROVED.md and docs/HALL.md, functions of files, and the files that
the pages link to. It also looks whether docs/PROVED.md names each clause of the top call, whether docs/ARCHITECTURE.md has a row for each crate, and whether docs/LIBRARY.md shows code and output of the
examples as they stand.

Use: checks/page_names.py            The last line is 'N passed, M failed'; the exit code is 0 where none failed.
     checks/page_names.py --list CRATE   Prints each public call of the crate with the names of its clauses, file by file.

docs/PROVED.md: a heading '### ..' names crates. Where the first cell of a row below it is the name of one of these crates, the second cell names clauses of that crate; else the first cell names
clauses of the heading's first crate. A clause is named as `call: clause`, as `call`, or as a clause of the call named before it in the cell. `Type::call` is a call of that type or trait, and
`file::call` a call of that file.

docs/HALL.md, docs/LIBRARY.md and docs/PROVED.md: the last cells of tables whose last column is 'said by' name clauses or definitions of any crate. In docs/HALL.md the sections '## What a hall promises ..' have such
tables.

Functions stand behind their file, as `crate/src/file.rt`, `function`.
"""
import os
import re
import sys

TOP = os.path.dirname(os.path.dirname(os.path.abspath(__file__)))
NAME = r"`([^`]+)`"


def read(*parts):
    with open(os.path.join(TOP, *parts), encoding="utf-8") as it:
        return it.read()


def all_crates():
    return re.findall(r"^(\w+):", read("crates.txt"), re.M)


def owners_of(head):
    """The trait and the type that the head of an impl names."""
    head = head.split("{")[0].split(" where ")[0]
    while "<" in head:
        shorter = re.sub(r"<[^<>]*>", "", head)
        if shorter == head:
            break
        head = shorter
    return [it.split("::")[-1].strip() for it in head.removeprefix("impl").split(" for ")]


def calls_in(text):
    """Each function of a file: its types and traits, its name, whether it is open to others, and the names of its clauses."""
    owners, is_open, found = [], False, []
    for line in text.split("\n"):
        if line.startswith("impl"):
            owners, is_open = owners_of(line), " for " in line
        elif named := re.match(r"pub trait (\w+)", line):
            owners, is_open = [named.group(1)], True
        elif line.startswith("}"):
            owners, is_open = [], False
        if head := re.match(r"\s*(pub(?:\([a-z]+\))? )?(?:const )?fn (\w+)", line):
            found.append((owners, head.group(2), is_open or head.group(1) == "pub ", []))
        elif (clause := re.match(r"\s*ensures (\w*)", line)) and found:
            found[-1][3].append(clause.group(1))
    return found


def files_of(crate):
    """The crate's files of code, each with its path below src."""
    top = os.path.join("crates", crate, "src")
    for folder, _, files in sorted(os.walk(os.path.join(TOP, top))):
        for name in sorted(files):
            if name.endswith(".rt"):
                yield os.path.relpath(os.path.join(folder, name), os.path.join(TOP, top)), read(folder, name)


def clauses_of(crate):
    """The names of the crate's functions, each with the names of its clauses: by the name alone, and behind type, trait and file."""
    found = {}
    for path, text in files_of(crate):
        for owners, call, _, clauses in calls_in(text):
            for name in call, *(f"{owner}::{call}" for owner in owners), f"{os.path.basename(path)[:-3]}::{call}":
                found.setdefault(name, set()).update(clauses)
    return found


def list_calls(crate):
    """Prints the crate's public calls with the names of their clauses."""
    for path, text in files_of(crate):
        for owners, call, is_open, clauses in calls_in(text):
            if is_open:
                name = "::".join([*owners[-1:], call])
                print(f"{crate}/src/{path}: {name}" + (f": {', '.join(it or '(no name)' for it in clauses)}" if clauses else ""))


def is_there(name, before, calls):
    """Whether the name is a call of the crate with that clause, and the call that it names."""
    call, _, clause = name.partition(": ")
    if clause:
        return clause in calls.get(call, ()), call
    if "::" not in name and call in calls.get(before, ()):
        return True, before
    return call in calls, call


def proved_names():
    """Each name of the tables of docs/PROVED.md, and whether it is there."""
    page = "docs/PROVED.md"
    known, crates = all_crates(), []
    calls = {}
    for line in read(page).split("## Only tested")[0].split("\n"):
        if line.startswith("### "):
            crates = re.findall(r"`(\w+)`", line)
            for crate in crates:
                yield f"{page}: the crate {crate}", crate in known
                calls.setdefault(crate, clauses_of(crate))
        elif line.startswith("#"):
            crates = []
        elif line.startswith("| `") and crates:
            cells = line.strip("| ").split(" | ")
            crate, names = crates[0], cells[0]
            if cells[0].strip("`") in crates:
                crate, names = cells[0].strip("`"), cells[1]
            before = None
            for name in re.findall(NAME, names):
                well, before = is_there(name, before, calls[crate])
                yield f"{page}: {crate}: {name}", well


def top_told():
    """Each clause of the top call, and whether docs/PROVED.md names it."""
    page = "docs/PROVED.md"
    section = read(page).partition("`sincronia_cli`")[2].split("\n### ")[0]
    firsts = [line.split(" | ")[0] for line in section.split("\n") if line.startswith("| `sincronia: ")]
    told = {name.split(": ")[-1] for cell in firsts for name in re.findall(NAME, cell)}
    for clause in sorted(clauses_of("sincronia_cli")["command::sincronia"]):
        yield f"{page}: a row of sincronia: {clause}", clause in told


def definitions_of(crate):
    """The text of the crate's definitions."""
    folder = os.path.join("crates", crate, "specs")
    if not os.path.isdir(os.path.join(TOP, folder)):
        return ""
    return "\n".join(read(folder, name) for name in sorted(os.listdir(os.path.join(TOP, folder))) if name.endswith(".antt"))


def is_defined(name, text):
    """Whether a definition stands in the text, with its field where one is named."""
    name, _, field = name.partition(".")
    records = re.findall(rf"^\s*pub record {name}\b.*?(?=^\S)", text + "\n.", re.M | re.S)
    if field:
        return any(re.search(rf"^\s*pub {field} :", it, re.M) for it in records)
    return bool(records) or re.search(rf"^\s*abbrev pub {name} :", text, re.M) is not None


def said_by(page):
    """The last cell of each row of the page's tables whose last column is 'said by'."""
    inside = False
    for line in read(page).split("\n"):
        if not line.startswith("|"):
            inside = False
        elif line.rstrip().endswith("| said by |"):
            inside = True
        elif inside and not line.startswith("|--"):
            yield line.rstrip("| ").split(" | ")[-1]


def said_names():
    """Each name of the cells under 'said by', looked up among all crates, and whether it is there."""
    calls, text = {}, "\n".join(map(definitions_of, all_crates()))
    for crate in all_crates():
        for call, clauses in clauses_of(crate).items():
            calls.setdefault(call, set()).update(clauses)
    for page, cell in ((page, cell) for page in ("docs/HALL.md", "docs/LIBRARY.md", "docs/PROVED.md") for cell in said_by(page)):
        before = None
        for name in re.findall(NAME, cell):
            is_call = "::" in name or name.split(":")[0] in calls or name in calls.get(before, ())
            well, before = is_there(name, before, calls) if is_call else (is_defined(name, text), before)
            yield f"{page}: {name}", well


def hall_sections():
    """Each section of docs/HALL.md on what a hall promises, and whether its table names what says so."""
    page = "docs/HALL.md"
    for title in re.findall(r"^## What a hall promises.*", read(page), re.M) or ["## What a hall promises"]:
        yield f"{page}: names in the section '{title}'", "| said by |" in read(page).partition(title)[2].split("\n## ")[0]


def pages():
    return ["README.md", *(f"docs/{it}" for it in sorted(os.listdir(os.path.join(TOP, "docs"))) if it.endswith(".md"))]


def file_names():
    """Each function that a page names behind its file, and whether it is there."""
    for page in pages():
        for path, names in re.findall(r"`(\w+/src/\w+\.rt)`(?: \||,)((?: `\w+`,?)*)", read(page)):
            file = os.path.join("crates", path)
            text = read(file) if os.path.isfile(os.path.join(TOP, file)) else ""
            for name in re.findall(r"`(\w+)`", names) or [""]:
                yield f"{page}: {path}: {name}", bool(text) and (not name or re.search(rf"\bfn {name}\b", text) is not None)


def titles_of(page):
    """The marks of the page's headings, by which a link names them."""
    return [re.sub(r"[^\w\- ]", "", it.lower()).replace(" ", "-") for it in re.findall(r"^#+ (.*)", read(page), re.M)]


def linked_files():
    """Each file and each heading that a page links to, and whether it is there."""
    for page in pages():
        for link, _, title in re.findall(r"\]\(([^)#:]*)(#([^)]+))?\)", read(page)):
            file = os.path.normpath(os.path.join(os.path.dirname(page), link)) if link else page
            well = os.path.exists(os.path.join(TOP, file))
            yield f"{page}: {link}{'#' + title if title else ''}", well and (not title or title in titles_of(file))


def shown_examples():
    """Each block of docs/LIBRARY.md, and whether an example has it: code as lines of its source, text as its stored output; and each example, and whether the page shows both."""
    page = "docs/LIBRARY.md"
    blocks = re.findall(r"^```(rust|text)\n(.*?)^```$", read(page), re.M | re.S)
    has = {it: {kind for kind, block in blocks if is_of(it, kind, block)} for it in all_crates() if it.endswith("_example")}
    for kind, block in blocks:
        yield f"{page}: {kind} of an example: {block.partition(chr(10))[0]}", any(is_of(it, kind, block) for it in has)
    for crate, kinds in has.items():
        yield f"{page}: code and output of {crate}", len(kinds) == 2


def is_of(crate, kind, block):
    """Whether the lines of code stand so in the crate, or the text is what the crate is to print."""
    return any("\n" + block in "\n" + text for _, text in files_of(crate)) if kind == "rust" else os.path.isfile(os.path.join(TOP, "crates", crate, "stdout")) and block == read("crates", crate, "stdout")


def crates_told():
    """Each crate, and whether docs/ARCHITECTURE.md has a row of it."""
    firsts = {it for line in read("docs", "ARCHITECTURE.md").split("\n") if line.startswith("| ") for it in re.findall(r"`(\w+)`", line.split(" | ")[0])}
    for crate in all_crates():
        yield f"docs/ARCHITECTURE.md: a row of {crate}", crate in firsts


def main():
    if sys.argv[1:2] == ["--list"] and len(sys.argv) == 3:
        if sys.argv[2] not in all_crates():
            sys.exit(f"no crate {sys.argv[2]}")
        list_calls(sys.argv[2])
        return 0
    if sys.argv[1:]:
        sys.exit(__doc__)
    results = [*proved_names(), *top_told(), *said_names(), *hall_sections(), *file_names(), *linked_files(), *crates_told(), *shown_examples()]
    for name, well in results:
        if not well:
            print(f"not there: {name}")
    wrong = sum(not well for _, well in results)
    print(f"{len(results) - wrong} passed, {wrong} failed")
    return 1 if wrong else 0


if __name__ == "__main__":
    sys.exit(main())
