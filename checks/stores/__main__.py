"""Harms a store that has published, and opens it: each refusal of opening and each cause for which a record is none.

The store is made by the program. Its files are then read and changed here, one change at a time, by the pages on the
journal, on formats and on opening; the refusal that each has to get is computed here too. A store that is refused keeps
its bytes, and each harm begins from the files as they were made.
Then the press's file is filled, and has room for an edition or not. Then a store is copied while the program runs, as docs/operations.md says, and each copy has to open. And stores without
editions are audited, which leaves them as they are.
Usage: python3 checks/stores PROGRAM, in a scratch folder."""
import copy, json, os, random, subprocess, sys

# The folder stays as it is.
sys.dont_write_bytecode = True

from audits import try_audits
from copies import try_copies
from full import try_full
from harms import all_harms
from journal import Press

KRILLC = os.path.abspath(sys.argv[1])
DATA = "krill-data"
# The clocks of the runs that make the store, in seconds behind: no two editions are of one second, or of the next one.
BEHIND = (3600, 1800, 0)
random.seed(13)


def update(ca, add=(), remove=()):
    return {"command": "roas update", "ca": ca, "add": [*add], "remove": [*remove]}


def editions():
    """The lines of each edition. The last one withdraws what the first one put, and all behind it revoke, for each authority:
    what fits isn't made anew, so that both have to change."""
    yield [{"command": "add", "ca": "isp", "signer": 0},
           {"command": "children add", "ca": "ta", "child": "isp", "resources": {"ipv4": "10.0.0.0/8"}},
           {"command": "parents add", "ca": "isp", "parent": "ta"},
           update("isp", [f"10.0.{third}.0/24 => 64496" for third in (1, 2, 3)]),
           update("isp", ["10.0.8.0/24 => 64496"]),
           update("ta", ["192.0.2.0/24 => 1", "192.0.3.0/24 => 1"])]
    yield [update("ta", ["192.0.4.0/24 => 1"]), update("isp", ["10.0.9.0/24 => 64496"])]
    yield [update("ta", [], ["192.0.2.0/24 => 1"]), update("isp", [], [f"10.0.{third}.0/24 => 64496" for third in (8, 9)])]


def run(words, lines=(), **more):
    given = "".join(json.dumps(line) + "\n" for line in lines)
    return subprocess.run([KRILLC, *words], input=given, capture_output=True, text=True, **more)


def files():
    """All files of the store, but for what is exported."""
    found = {}
    for name in sorted(os.listdir(DATA)):
        path = os.path.join(DATA, name)
        if os.path.isfile(path):
            with open(path, "rb") as file:
                found[name] = file.read()
    return found


def put(kept, now):
    """Writes the files of which `now` has others bytes than `kept`."""
    for name, content in now.items():
        if kept[name] != content:
            with open(os.path.join(DATA, name), "wb") as file:
                file.write(content)


def make_store():
    for behind, lines in zip(BEHIND, editions()):
        done = run(["run"], [*lines, {"command": "publish"}], env={**os.environ, "KRILL_CLOCK_BEHIND": str(behind)})
        replies = [json.loads(reply) for reply in done.stdout.splitlines()]
        if done.returncode or any("refused" in reply for reply in replies):
            sys.exit(f"checks/stores: {replies} and {done.stderr}")
    return files()


def told_of(harm, kept):
    """What is wrong with what the program does on a harmed store, if anything."""
    harmed = dict(kept)
    harmed["parsed"] = Press.read(kept["press"])
    harm.do(harmed)
    del harmed["parsed"]
    if harmed == kept and not harm.words:
        return "nothing was harmed"
    put(kept, harmed)
    done, left = run(["audit", *harm.words]), files()
    put(left, kept)
    if harm.told is None:
        return None if done.returncode == 0 and not done.stderr else f"status {done.returncode}, {done.stderr!r}"
    wanted = f"krillc: opening refused: {harm.told}\n"
    if (done.returncode, done.stdout, done.stderr) != (3, "", wanted):
        return f"status {done.returncode}, {done.stdout!r} and {done.stderr!r}, not {wanted!r}"
    changed = [name for name in left if left[name] != harmed[name]]
    return f"{changed} changed" if changed else None


def main():
    kept = make_store()
    press = Press.read(kept["press"])
    if press.bytes() != kept["press"]:
        sys.exit("checks/stores: the press's file is another than its page says")
    sound = run(["audit"])
    harms = [*all_harms(copy.deepcopy(press), kept)]
    wrong = [(harm, told) for harm in harms for told in [told_of(harm, kept)] if told]
    for harm, told in wrong:
        print(f"checks/stores: {harm.name}: {told}")
    if run(["audit"]).stdout != sound.stdout or not sound.stdout:
        sys.exit("checks/stores: the store as it was made opens otherwise than before")
    if wrong:
        sys.exit(f"checks/stores: {len(wrong)} of {len(harms)} harmed stores open otherwise than they have to")
    wrong, full = try_full(KRILLC, "full", kept)
    if wrong:
        sys.exit(f"checks/stores: {wrong}")
    wrong, told = try_copies(KRILLC, "copies")
    if wrong:
        sys.exit(f"checks/stores: {wrong}")
    wrong, audited = try_audits(KRILLC)
    for it in wrong:
        print(f"checks/stores: {it}")
    if wrong:
        sys.exit(f"checks/stores: {len(wrong)} of {audited} stores without editions are otherwise behind an audit")
    print(f"checks/stores: ok, {len(harms)} harmed stores; {full}; {told}; {audited} stores without editions audited")


main()
