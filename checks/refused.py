#!/usr/bin/env python3
"""refused.py [NAME..]: tries the edits of crates/NAME/refused, or of all crates, outside the gate: the prover must
refuse each.

`rt must-fail` tries them, as the gate tries those of must-fail/: in a copy of these crates and those below them, where
they stand in its place. The copy takes out/ along, so what is proved there isn't proved again: prove the crate first
(`rt check` in its folder). What was tried on this machine isn't tried again until something that it stands on changes;
a first word --anew tries all. RT=COMMAND takes another command than `rt`. The last line is 'N passed, M failed'."""
import os, re, shutil, subprocess, sys, tempfile

TOP = os.path.dirname(os.path.dirname(os.path.abspath(__file__)))
TRIED = re.compile(r"must-fail ([\w-]+/[\w.-]+)\.edit: (.*)")


def lines_of_crates():
    """The lines of crates.txt by the crate that each is of, and the names of those that each crate stands on."""
    lines, below = {}, {}
    with open(os.path.join(TOP, "crates.txt"), encoding="utf-8") as file:
        for line in file:
            head, _, names = line.split("#")[0].partition(":")
            if head.strip():
                lines[head.split()[0]], below[head.split()[0]] = line, names.split()
    return lines, below


def with_those_below(names, below):
    found, waiting = set(), [*names]
    while waiting:
        name = waiting.pop()
        if name not in found:
            found.add(name)
            waiting += [it for it in below[name] if it in below]
    return found


def edits_of(name):
    folder = os.path.join(TOP, "crates", name, "refused")
    return sorted(it.removesuffix(".edit") for it in os.listdir(folder)) if os.path.isdir(folder) else []


def link_or_copy(path, to):
    """rt replaces what it has proved, and writes into none of it. Other files of out/ are small."""
    if path.endswith(".oantt") or "/out/rlib/" in path:
        try:
            return os.link(path, to)
        except OSError:
            pass
    return shutil.copy2(path, to)


def copy_crate(name, to, with_edits):
    crate = os.path.join(TOP, "crates", name)
    shutil.copytree(crate, to, symlinks=True, copy_function=link_or_copy,
                    ignore=shutil.ignore_patterns("must-fail", "refused"))
    if with_edits:
        shutil.copytree(os.path.join(crate, "refused"), os.path.join(to, "must-fail"))


def results(words, folder):
    """What rt says of each edit. All other lines are passed on."""
    ran = subprocess.Popen(words, cwd=folder, stdin=subprocess.DEVNULL, stdout=subprocess.PIPE,
                           stderr=subprocess.STDOUT, text=True, errors="replace")
    told = {}
    for line in ran.stdout:
        print(line, end="", flush=True)
        found = TRIED.search(line)
        if found:
            told[found[1]] = found[2]
    ran.wait()
    return told


def main(words):
    flags, names = [it for it in words if it.startswith("--")], [it for it in words if not it.startswith("--")]
    lines, below = lines_of_crates()
    unknown = [it for it in names if it not in lines]
    if unknown or flags not in ([], ["--anew"]):
        sys.exit(f"refused: {' '.join([*unknown, *flags])}: no crate, and not --anew")
    edits = {name: edits_of(name) for name in names or lines}
    edits = {name: found for name, found in edits.items() if found}
    told = {}
    with tempfile.TemporaryDirectory(prefix="krill-refused-") as room:
        copied = with_those_below(edits, below)
        for name in copied:
            copy_crate(name, os.path.join(room, "crates", name), name in edits)
        with open(os.path.join(room, "crates.txt"), "w", encoding="utf-8") as file:
            file.writelines(line for name, line in lines.items() if name in copied)
        shutil.copy2(os.path.join(TOP, "HANDLES"), room)
        if edits:
            told = results([os.environ.get("RT", "rt"), "must-fail", *flags, *edits], room)
    every = [f"{name}/{edit}" for name, found in edits.items() for edit in found]
    failed = [it for it in every if not told.get(it, "").startswith("refused, as it must be")]
    for it in failed:
        print(f"refused: {it}: {told.get(it, 'nothing was said of it')}")
    print(f"{len(every) - len(failed)} passed, {len(failed)} failed")
    return 1 if failed else 0


if __name__ == "__main__":
    sys.exit(main(sys.argv[1:]))
