#!/usr/bin/env python3
"""What the documents say of the crates, beside the crates.

    bench/docs.py

Looks whether docs/ARCHITECTURE.md has a row for each crate of crates.txt in its order, with the libraries that its code names
and that no other of them stands on; whether docs/PROVED.md has a row for each crate that the program is made of, in cells of
at most 60 words; whether docs/DECISIONS.md names each wrong body under its crate, and no other; whether README.md begins what is
proved with the sentences of docs/PROMISE.md; whether the names that docs/DEFINITIONS.md and docs/PROVED.md give in backquotes stand in some crate; whether
each link leads to a file or a heading; and whether README.md has at most 180 lines. Prints what doesn't hold, and ends with 1
where something doesn't.
"""
import os
import re
import sys

TOP = os.path.join(os.path.dirname(os.path.abspath(__file__)), "..")


def read(name):
    with open(f"{TOP}/{name}", encoding="utf-8") as it:
        return it.read()


def files_of(crate, parts):
    for part in parts:
        for folder, _, names in os.walk(f"{TOP}/crates/{crate}/{part}"):
            yield from (f"{folder}/{it}" for it in names if it.endswith((".rt", ".antt")))


def listed():
    """The libraries that crates.txt lists for each crate, in its order."""
    lines = [it.split("#")[0].split(":") for it in read("crates.txt").split("\n")]
    return {it[0].split()[0]: it[1].split() for it in lines if len(it) == 2}


def named(crate, libraries):
    """The libraries that the crate's code, definitions or proofs name, tests apart; those of a crate of tests alone."""
    found, tests = set(), set()
    for file in files_of(crate, ("src", "specs", "proofs")):
        with open(file, encoding="utf-8") as it:
            text = it.read()
        into = tests if "tests" in os.path.basename(file) or "/tests/" in file else found
        into |= {it for it in libraries if re.search(rf"\b{it}(::|\.)", text)}
    return found or tests


def next_below(crates):
    """For each crate the libraries that it names, but those that another of them stands on."""
    names = {it: named(it, libraries) for it, libraries in crates.items()}

    def below(crate):
        return {it for each in names.get(crate, ()) for it in (each, *below(each))}

    return {crate: {it for it in of if not any(it in below(each) for each in of if each != it)} for crate, of in names.items()}


def rows(page):
    return [[it.strip() for it in line.strip().strip("|").split("|")] for line in read(page).split("\n") if line.startswith("|")]


def codes(text):
    return re.findall(r"`([^`]+)`", text)


def of_architecture(crates):
    below, order = next_below(crates), []
    for row in rows("docs/ARCHITECTURE.md"):
        named_here = [it for it in codes(row[1]) if it in crates] if len(row) == 4 else []
        order += named_here
        wanted = set().union(*(below[it] for it in named_here))
        if named_here and set(codes(row[2])) != wanted:
            yield f"ARCHITECTURE: next below {', '.join(named_here)} stand {', '.join(sorted(wanted))}"
    if order != list(crates):
        at = next((i for i, (one, other) in enumerate(zip([*order, ""], [*crates, ""])) if one != other), len(order))
        yield f"ARCHITECTURE: row {at + 1} should be {[*crates, 'no row'][at]}"


def of_proved(crates):
    made, todo = set(), ["ct_cli"]
    while todo:
        it = todo.pop()
        todo += [each for each in crates[it] if each in crates and each not in made]
        made.add(it)
    told = rows("docs/PROVED.md")
    for it in sorted(made - {"ct_cli"} - {codes(row[0])[0] for row in told if codes(row[0])}):
        yield f"PROVED: no row for {it}"
    for row in told:
        yield from (f"PROVED: {row[0]} has a cell of {len(cell.split())} words" for cell in row if len(cell.split()) > 60)


def of_names(crates):
    texts = {}
    for crate in crates:
        for file in files_of(crate, ("src", "specs", "proofs")):
            with open(file, encoding="utf-8") as it:
                texts[file] = it.read()
    known = set(re.findall(r"[\w-]+", "\n".join(texts.values()))) | {re.sub(f"^{TOP}/crates/[^/]*/", "", it) for it in texts}
    for page in ("docs/DEFINITIONS.md", "docs/PROVED.md", "docs/ARCHITECTURE.md", "docs/CONCURRENCY.md"):
        for name in sorted(set(codes(read(page)))):
            if not re.fullmatch(r"rattle-kit-\w+|[0-9a-f]{16}", name) and re.fullmatch(r"[A-Za-z_][\w:-]*|specs/\w+\.antt|src/\w+\.rt", name) and name not in crates:
                last = name.split("::")[-1]
                if last not in known and not os.path.exists(f"{TOP}/{name}"):
                    yield f"{page}: no crate has {name}"


def of_edits(crates):
    text = read("docs/DECISIONS.md")
    listed_here, crate = set(), ""
    for name in codes(text[text.index("| Kind of bug |") :].split("\n\n")[0]):
        crate = name if name in crates else crate
        listed_here |= {(crate, name)} - {(name, name)}
    folders = {it: f"{TOP}/crates/{it}/must-fail" for it in crates}
    there = {(it, name[:-5]) for it, folder in folders.items() if os.path.isdir(folder) for name in os.listdir(folder) if name.endswith(".edit")}
    yield from (f"DECISIONS: {crate} {name} stands on one side alone" for crate, name in sorted(there ^ listed_here))


def of_promise():
    """What stands between two comments of the page stands in the README too."""
    if os.path.exists(f"{TOP}/docs/PROMISE.md"):
        sentences = read("docs/PROMISE.md").split("<!-- the five sentences -->\n")[1].split("<!--")[0]
        if sentences not in read("README.md"):
            yield "README.md hasn't the sentences of docs/PROMISE.md"


def of_links():
    pages = ["README.md", "CONTRIBUTING.md", *(f"docs/{it}" for it in sorted(os.listdir(f"{TOP}/docs")) if it.endswith(".md"))]
    for page in pages:
        for to in re.findall(r"\]\(([^)\s]+)\)", read(page)):
            file, _, heading = to.partition("#")
            path = os.path.normpath(os.path.join(os.path.dirname(page), file)) if file else page
            if not os.path.exists(f"{TOP}/{path}"):
                yield f"{page}: {to} leads nowhere"
            elif heading:
                heads = [re.sub(r"[^\w -]", "", it.lower()).replace(" ", "-") for it in re.findall(r"(?m)^#+ (.*)$", read(path))]
                if heading not in heads:
                    yield f"{page}: {to} leads to no heading"
    if read("README.md").count("\n") > 180:
        yield "README.md has more than 180 lines"


def main():
    crates = listed()
    found = [*of_architecture(crates), *of_proved(crates), *of_edits(crates), *of_promise(), *of_names(crates), *of_links()]
    print("\n".join(found) or "the documents agree with the crates")
    return int(bool(found))


if __name__ == "__main__":
    sys.exit(main())
