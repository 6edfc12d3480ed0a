"""What `krillc audit` leaves of a store without editions: all as it was, so that a later run has its own bases, and says that a
new trust anchor begins."""
import json, os, shutil, subprocess
from functools import partial

DATA, LEFT_OVER = "krill-data", ".audit"
HEADER = b"KRILLJOURNAL0001"
HEAD = HEADER + b"\x00"
NOTHING = {"moment": 0, "objects": 0, "origins": 0, "points": 0, "serial": 0}
OTHER_BASES = ("--rsync", "rsync://other.example/m/", "--rrdp", "https://other.example/rrdp/")
BASES = ("--rsync", "rsync://rpki.my.example/repo/", "--rrdp", "https://rpki.my.example/rrdp/")
COMMAND = '{"command":"roas update","ca":"ta","add":["10.0.0.0/16 => 64496"]}\n'
NEW_ANCHOR = "a new trust anchor begins"
DAMAGED = 3


def run(krillc, folder, *words, lines=""):
    return subprocess.run([krillc, *words], cwd=folder, input=lines, capture_output=True, text=True)


def found_in(folder):
    """Everything in the store's folder: bytes of files, or where a link leads."""
    found, data = {}, os.path.join(folder, DATA)
    for name in sorted(os.listdir(data)):
        path = os.path.join(data, name)
        if os.path.islink(path):
            found[name] = os.readlink(path)
        else:
            with open(path, "rb") as file:
                found[name] = file.read()
    return found


def write(path, content):
    with open(path, "wb") as file:
        file.write(content)


def lose_all(data):
    """A folder in which nothing stands."""
    for name in os.listdir(data):
        os.unlink(os.path.join(data, name))


# What is done to a store with commands that never published, by name.
STATES = {
    "no press": lambda data: os.unlink(os.path.join(data, "press")),
    "an empty press": lambda data: write(os.path.join(data, "press"), b""),
    "the head of a press": lambda data: write(os.path.join(data, "press"), HEAD),
    "a press whose first record was cut short": lambda data: write(os.path.join(data, "press"), HEAD + bytes(8) + b"\x30half"),
    "a press of a journal's least bytes": lambda data: write(os.path.join(data, "press"), HEADER + b"\x01"),
    "no press and no desk but one": lambda data: [os.unlink(os.path.join(data, it)) for it in os.listdir(data) if it != "desk-00"],
    "an empty folder": lose_all,
}


def of_state(krillc, folder, harm):
    """What is wrong with an audit of such a store and with the run behind it, if anything."""
    data = os.path.join(folder, DATA)
    run(krillc, folder, "run", lines=COMMAND)
    harm(data)
    kept = found_in(folder)
    for words in (OTHER_BASES, ()):
        done = run(krillc, folder, "audit", *words)
        if (done.returncode, done.stderr) != (0, "") or json.loads(done.stdout) != NOTHING:
            return f"an audit: status {done.returncode}, {done.stdout!r} and {done.stderr!r}"
        if found_in(folder) != kept:
            return f"an audit leaves {sorted(found_in(folder).items() ^ kept.items())}"
    done = run(krillc, folder, "run", *BASES)
    is_told = "desk-00" in kept
    if done.returncode or (NEW_ANCHOR in done.stderr) != is_told:
        return f"a run behind an audit: status {done.returncode}, {done.stderr!r}"
    return None


def of_least_desk(krillc, folder):
    """A desk of no more bytes than a journal without records has holds no command, whatever they are: so no trust anchor was
    told of that ends."""
    run(krillc, folder, "run")
    data = os.path.join(folder, DATA)
    lose_all(data)
    write(os.path.join(data, "desk-00"), HEADER + b"\x01")
    done = run(krillc, folder, "run")
    if done.returncode or NEW_ANCHOR in done.stderr:
        return f"status {done.returncode}, {done.stderr!r}"
    return None


def of_no_journal(krillc, folder):
    """A press that is no journal is refused, and nobody is told that a new trust anchor begins: it has to be restored."""
    press = os.path.join(folder, DATA, "press")
    run(krillc, folder, "run", lines=COMMAND)
    for content in (bytes(64), b"KRILLJOURNAL0002\x00" + bytes(9), b"KRILLJOURNAL0002\x01" + bytes(9)):
        write(press, content)
        done = run(krillc, folder, "run")
        with open(press, "rb") as file:
            kept = file.read()
        if done.returncode != DAMAGED or NEW_ANCHOR in done.stderr or "device 64" not in done.stderr or kept != content:
            return f"a press of {content!r}: status {done.returncode}, {done.stderr!r}"
    return None


def of_left_over(krillc, folder):
    """What an audit that was killed has left goes with the next start, and a link in its place isn't followed."""
    path, other = os.path.join(folder, DATA, LEFT_OVER), os.path.join(folder, "other")
    run(krillc, folder, "run", lines=COMMAND)
    os.unlink(os.path.join(folder, DATA, "press"))
    kept = found_in(folder)
    for words in (("audit",), ("run",)):
        for make in (lambda: write(path, b"left"), lambda: os.symlink(os.path.abspath(other), path)):
            write(other, b"another's")
            make()
            done = run(krillc, folder, *words)
            with open(other, "rb") as file:
                if done.returncode or os.path.lexists(path) or file.read() != b"another's":
                    return f"{words[0]} over what is left: status {done.returncode}, {done.stderr!r}, {sorted(os.listdir(folder))}"
        if words == ("audit",) and found_in(folder) != kept:
            return "an audit over what is left changes the store"
    return None


def of_nothing(krillc, folder):
    """Where there is no store an audit makes the folder alone, which is its lock."""
    done = run(krillc, folder, "audit")
    if done.returncode or json.loads(done.stdout) != NOTHING or os.listdir(folder) != [DATA] or found_in(folder):
        return f"an audit of nothing: status {done.returncode}, {done.stderr!r}, {os.listdir(folder)}"
    return None


def try_audits(krillc):
    """What is wrong, and how many stores were tried."""
    tries = {name: partial(of_state, harm=harm) for name, harm in STATES.items()}
    tries |= {"a desk's least bytes": of_least_desk, "no journal": of_no_journal}
    tries |= {"what is left over": of_left_over, "no store": of_nothing}
    wrong = []
    for name, attempt in tries.items():
        os.mkdir("audited")
        told = attempt(krillc, "audited")
        shutil.rmtree("audited")
        if told:
            wrong.append(f"{name}: {told}")
    return wrong, len(tries)
