"""edits.py TOP: looks at the edits of TOP/crates/*/must-fail, which the gate tries, and of TOP/crates/*/refused, which
`make refused` tries outside it.

- Each changes code alone, in its crate's src/, and can be applied: each `old:` text stands in its file once.
- No two of a crate have one name.
- The crate's README names each between backticks, without '.edit'. In its tables the columns with 'guard' or 'edit' in
  their heading have nothing between backticks but edits and crates.
- The gate tries at most MOST of them, in at most MOST_CRATES crates: each costs a check of its crate."""
import glob, os, re, sys

MOST, MOST_CRATES = 26, 9
GATE, OUTSIDE = "must-fail", "refused"


def read(path):
    with open(path, encoding="utf-8") as file:
        return file.read()


def why_not_applied(text, crate):
    """Why an edit can't be applied to its crate, or None. It is read as rt reads it."""
    path, old, texts, before = None, None, {}, {}
    for line in text.split("\n"):
        if line.startswith("file: "):
            path = line.removeprefix("file: ").strip()
            if not path.startswith("src/") or os.path.normpath(path) != path:
                return f"{path} isn't below src/"
        elif line.startswith("old: "):
            if old is not None:
                return "an 'old:' has no 'new:'"
            old = line.removeprefix("old: ")
        elif line.startswith("new:"):
            if path is None or old is None:
                return "a 'new:' has no 'file:' or no 'old:'"
            if path not in texts:
                if not os.path.isfile(os.path.join(crate, path)):
                    return f"there is no {path}"
                texts[path] = before[path] = read(os.path.join(crate, path))
            times = texts[path].count(old)
            if times != 1:
                return f"{path} has {times} times and not once: {old.strip()}"
            texts[path] = texts[path].replace(old, line.removeprefix("new:").removeprefix(" "))
            old = None
        elif line.strip():
            return f"a line begins with none of 'file: ', 'old: ', 'new:': {line.strip()}"
    if old is not None:
        return "an 'old:' has no 'new:'"
    return "it changes nothing" if texts == before else None


def guards(text):
    """What stands between backticks in the columns of a README that name edits."""
    columns = None
    for line in text.split("\n"):
        if not line.startswith("|"):
            columns = None
            continue
        cells = line.split("|")
        if columns is None:
            columns = [i for i, cell in enumerate(cells) if re.search("guard|edit", cell.lower())]
            continue
        for i in columns:
            if i < len(cells):
                yield from re.findall("`([^`]*)`", cells[i])


def main(top):
    faults, edits, in_gate = [], {}, []
    crates = [it for it in sorted(glob.glob(os.path.join(top, "crates", "*"))) if os.path.isdir(it)]
    for crate in crates:
        own = edits[crate] = []
        for folder in GATE, OUTSIDE:
            for path in sorted(glob.glob(os.path.join(crate, folder, "*"))):
                label, (name, kind) = os.path.relpath(path, top), os.path.splitext(os.path.basename(path))
                if kind != ".edit":
                    faults.append(f"{label} is no edit")
                    continue
                why = why_not_applied(read(path), crate)
                if why:
                    faults.append(f"{label} can't be applied: {why}")
                if name in own:
                    faults.append(f"{label}: its crate has another edit of that name")
                own.append(name)
                if folder == GATE:
                    in_gate.append(crate)
    known = {name for names in edits.values() for name in names} | {os.path.basename(it) for it in crates}
    for crate in crates:
        readme = os.path.join(crate, "README.md")
        text, label = read(readme) if os.path.exists(readme) else "", os.path.relpath(readme, top)
        faults += [f"{label} doesn't name the edit {it}" for it in edits[crate] if f"`{it}`" not in text]
        faults += [f"{label} names the edit {it}, which isn't there" for it in sorted({*guards(text)} - known)]
    if len(in_gate) > MOST or len({*in_gate}) > MOST_CRATES:
        faults.append(f"the gate tries {len(in_gate)} edits in {len({*in_gate})} crates, where it has time for {MOST} "
                      f"in {MOST_CRATES}: move some to {OUTSIDE}/")
    for fault in faults:
        print(f"edits: {fault}", file=sys.stderr)
    if not faults:
        every = sum(map(len, edits.values()))
        print(f"checks/edits: ok, {every} edits, of which the gate tries {len(in_gate)} in {len({*in_gate})} crates")
    return 1 if faults else 0


sys.exit(main(sys.argv[1]))
