#!/usr/bin/env python3
"""The CALLING.md pages of crates that others may use alone: their contracts, as the sources have them.

    bench/calling.py [--write]

Each crates/NAME/CALLING.md ends with the contracts of what the crate hands out. With --write they are written anew; without,
pages whose contracts or whose caller stand so in no source are named, and the script ends with 1.
"""
import glob
import os
import re
import sys

TOP = os.path.join(os.path.dirname(os.path.abspath(__file__)), "..")


def read(name):
    with open(name, encoding="utf-8") as it:
        return it.read()


def handed_out(folder):
    """The names that lib.rt hands out."""
    found = set()
    for names in re.findall(r"(?m)^pub use [\w:]+::(\{[^}]*\}|\w+);", read(f"{folder}/src/lib.rt")):
        found |= set(re.findall(r"\w+", names))
    return found


def contracts(folder):
    """Each public function with its clauses, one a line."""
    names, out = handed_out(folder), []
    for file in sorted(glob.glob(f"{folder}/src/*.rt")):
        within, lines = "", read(file).split("\n")
        for at, line in enumerate(lines):
            head = re.match(r"(?:pub )?(impl|trait)(<[^{]*?>)? (?:[\w:<>, ]+ for )?(\w+)", line)
            if head:
                within = (head[1], head[3])
            elif line == "}":
                within = ""
            call = re.match(r"( *)(pub )?(?:const )?fn (\w+)", line)
            if not call or "tests" in file:
                continue
            is_inside = bool(call[1])
            public = call[2] or (is_inside and within and within[0] == "trait")
            owner = within[1] if is_inside and within else call[3]
            if not public or owner not in names:
                continue
            text = []
            for more in lines[at:]:
                if more.strip() in ("{", "}", "") or more.lstrip().startswith(("//", "ghost ")):
                    break
                text.append(more.rstrip(" {;") if more.strip().endswith((" {", ";")) and not more.strip().startswith(("requires", "ensures")) else more)
            whole = " ".join(it.strip() for it in text).replace("( ", "(").replace(", )", ")")
            parts = re.split(r" (?=(?:requires|ensures\*?)\b)", whole)
            name = f"{owner}::{call[3]}" if is_inside else call[3]
            out.append(re.sub(r"^(?:pub )?(?:const )?fn \w+", f"fn {name}", parts[0]))
            out += [f"  {it.rstrip(';')}" for it in parts[1:]]
    return "\n".join(out) + "\n"


def main():
    sources = "\n".join(read(it) for it in glob.glob(f"{TOP}/crates/*/src/**/*.rt", recursive=True))
    wrong = 0
    for page in sorted(glob.glob(f"{TOP}/crates/*/CALLING.md")):
        text = read(page)
        front, _, rest = text.partition("```text\n")
        told, _, back = rest.partition("```\n")
        made = contracts(os.path.dirname(page))
        if "--write" in sys.argv:
            with open(page, "w", encoding="utf-8") as it:
                it.write(f"{front}```text\n{made}```\n{back}")
        elif told != made:
            print(f"{page}: the contracts are others now")
            wrong = 1
        caller = re.search(r"```rust\n(.*?)```", front, re.S)
        parts = [it for part in (caller[1] if caller else "?").split("\n\n") for it in (part.split("\n") if "use " in part[:10] else [part])]
        if not all(it.strip("\n") in sources for it in parts):
            print(f"{page}: its caller stands in no source")
            wrong = 1
    return wrong


if __name__ == "__main__":
    sys.exit(main())
