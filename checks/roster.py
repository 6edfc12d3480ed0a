#!/usr/bin/env python3
"""The roster of crates, docs/crates.md: made of crates.txt and of each crate's README: its first sentence, and its paragraph that
begins with 'Proved today:'.

roster.py writes it; roster.py --check writes nothing and ends with status 1 where it would change, or where a crate has no
heading or no README."""
import os
import re
import sys

TOP = os.path.dirname(os.path.dirname(os.path.realpath(__file__)))
HEAD = """# The crates

Lowest first under each heading. This page is made by `checks/roster.py` from `crates.txt` and the crates' READMEs, of each its first sentence and its paragraph on what is proved; the gate's own checks refuse it where it isn't as they say. What each stands on is in `crates.txt`.
"""


def entries():
    """Yields the heading and the name of each crate of crates.txt."""
    heading = ""
    with open(f"{TOP}/crates.txt", encoding="utf-8") as lines:
        for line in lines:
            if line.startswith("## "):
                heading = line[3:].strip()
                continue
            name = line.split("#")[0].partition(":")[0].split()
            if name:
                yield heading, name[0]


def first_sentence(crate):
    """The first sentence of the crate's README below its title, on one line."""
    path = f"{TOP}/crates/{crate}/README.md"
    if not os.path.isfile(path):
        return None
    with open(path, encoding="utf-8") as text:
        parts = [it for it in re.split(r"\n\s*\n", text.read()) if it.strip() and not it.startswith("#")]
    sentence = re.match(r".*?[.](?=\s+[A-Z`]|$)", " ".join(parts[0].split())) if parts else None
    return re.sub(r"\]\((?!http)[^)]*\)", "]", sentence[0]).replace("[", "").replace("]", "") if sentence else None


def proved(crate):
    """What its README says in its paragraph 'Proved today: ..', on one line."""
    with open(f"{TOP}/crates/{crate}/README.md", encoding="utf-8") as text:
        said = re.search(r"^Proved today: (.*?)(?=\n\s*\n|\Z)", text.read(), re.M | re.S)
    return " ".join(said[1].split()) if said else ""


def main():
    missing, text, last = [], HEAD, None
    for heading, crate in entries():
        what = first_sentence(crate)
        if not heading or not what:
            missing.append(f"{crate}: no {'heading in crates.txt' if not heading else 'README with a first sentence'}")
            continue
        if heading != last:
            text += f"\n## {heading[0].upper()}{heading[1:]}\n\n| crate | what it is | proved today |\n|---|---|---|\n"
            last = heading
        text += f"| [`{crate}`](../crates/{crate}/README.md) | {what} | {proved(crate)} |\n"
    path = f"{TOP}/docs/crates.md"
    if sys.argv[1:] == ["--check"]:
        with open(path, encoding="utf-8") as old:
            if old.read() != text:
                missing.append("docs/crates.md: not as checks/roster.py makes it; run that")
    else:
        with open(path, "w", encoding="utf-8") as new:
            new.write(text)
    for it in missing:
        print(f"roster: {it}")
    sys.exit(1 if missing else 0)


main()
