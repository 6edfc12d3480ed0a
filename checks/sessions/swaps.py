"""Files that change while krillc opens them: another one is put in a session's place between the look at it and its opening
(swap.c), and stays there, or is gone again behind the opening.

Whatever comes there, an opening waits for nobody; nothing is cut off but what then stands in the place itself; and what a link
leads to is neither read nor written."""
import os, select, shutil, signal, subprocess

import ends
from parts import LONGEST, numbers_of_files, start
from store import Store

HERE = os.path.dirname(os.path.abspath(__file__))
SERIAL = '{"command":"serial"}\n'
SERVED = '{"reply":"serial","serial":0}\n'
# What a file holds that a link leads to: a command that nothing else has.
ASIDE = '{"command":"add","ca":"stolen"}\n'
CHANGED = "another file stands there now"
# How an opening fails by itself.
FAILED = {"link to nothing": "No such file or directory (os error 2)", "folder": "Is a directory (os error 21)"}
EXISTS = "File exists (os error 17)"
ANY = ("file", "FIFO", "link to a file", "link to a FIFO", "link to nothing", "folder")


def rows():
    """Where, what was there, what comes, whether that is gone again, and why it is refused, where it is."""
    for which in ("in", "out"):
        for was, comes in [("file", kind) for kind in ANY] + [("FIFO", kind) for kind in ANY[:3]]:
            odd = FAILED.get(comes, ends.ODD if comes.startswith("link") else None)
            yield which, was, comes, False, odd
            yield which, was, comes, True, FAILED.get(comes, CHANGED)
    for comes in ANY:
        yield "out", "nothing", comes, False, EXISTS


def make(kind, aside, at):
    if kind == "file":
        ends.write(at, SERIAL)
    elif kind == "FIFO":
        os.mkfifo(at)
    elif kind == "folder":
        os.mkdir(at)
    elif kind != "nothing":
        os.mkfifo(aside) if kind.endswith("FIFO") else ends.write(aside, ASIDE) if kind.endswith("file") else None
        os.symlink(aside, at)


def swapping(library, store, place, beside, is_gone_again):
    relative = [os.path.relpath(path, store.folder) for path in (place, beside)]
    more = {"LD_PRELOAD": library, "SWAP_PLACE": relative[0], "SWAP_BESIDE": relative[1]}
    return os.environ | more | ({"SWAP_BACK": "1"} if is_gone_again else {})


def started(store, environment, stays):
    """Starts krillc with a line at standard input. Gives its status, that line's reply, and standard error."""
    with open(store.path("error"), "w+", encoding="ascii") as error:
        program = start(store.folder, "run", stdin=subprocess.PIPE, stdout=subprocess.PIPE, stderr=error, env=environment)
        try:
            os.write(program.stdin.fileno(), SERIAL.encode())
        except BrokenPipeError:
            pass
        program.stdin.close()
        ready, _, _ = select.select([program.stdout], [], [], LONGEST)
        ends.check(ready, "an opening waits for somebody", store.folder)
        told = os.read(program.stdout.fileno(), 1 << 16).decode()
        program.stdout.close()
        if told and stays:
            program.send_signal(signal.SIGTERM)
        status = program.wait(LONGEST)
        error.seek(0)
        return status, told, error.read()


def swap(library, folder, which, was, comes, is_gone_again, why):
    store, number = Store(folder), numbers_of_files()[0]
    place, beside, aside = ends.path(store, number, which), store.path("beside"), store.path("aside")
    if which == "out":
        ends.write(ends.path(store, number, "in"), SERIAL)
    make(was, aside, place)
    make(comes, aside, beside)
    stood = {path: os.lstat(path).st_ino for path in (place, beside) if os.path.lexists(path)}
    # A session at a FIFO ends by a signal alone.
    stays = (which, comes) == ("in", "FIFO")
    done = started(store, swapping(library, store, place, beside, is_gone_again), stays)
    served = (-signal.SIGTERM if stays else 0, SERVED, ends.NOTE)
    wanted = (4, "", ends.refusal(number, which, why)) if why else served
    told = f"session-{number}.{which}: for a {was} a {comes} comes{' and goes' if is_gone_again else ''}"
    ends.check(done == wanted, told, done)
    now = {path: os.lstat(path).st_ino for path in (place, beside) if os.path.lexists(path)}
    ends.check(now.get(place) == stood.get(place if is_gone_again else beside), f"{told}: it didn't", stood, now)
    ends.check(not os.path.isfile(aside) or ends.read(aside) == ASIDE, f"{told}: what it leads to was written")
    ends.check(os.path.exists(aside) == comes.endswith((" a file", " a FIFO")), f"{told}: what it leads to was made")
    for path in (place, beside):
        if os.path.isfile(path) and not os.path.islink(path):
            is_reply = not why and which == "out" and path == place
            ends.check(ends.read(path) == (SERVED if is_reply else SERIAL), f"{told}: {path} was written", ends.read(path))


def try_swaps():
    if not shutil.which("cc"):
        return "files that change while they are opened aren't tried: no cc"
    library = os.path.abspath("swap.so")
    subprocess.run(["cc", "-shared", "-fPIC", "-o", library, os.path.join(HERE, "swap.c")], check=True)
    tried = [*rows()]
    for number, row in enumerate(tried):
        swap(library, f"swapped-{number}", *row)
    return f"{len(tried)} files that change while they are opened"
