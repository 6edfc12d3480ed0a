"""How sessions' files and FIFOs are taken, and what one session's client does to others."""
import fcntl, json, os, signal, struct, subprocess, termios, time

from clients import AtFifos, AtStreams
from parts import LONGEST, fail, numbers_of_files, run as run_in, start
from store import Store

NUMBERS = None
# What standard error has first in each run without signers.
NOTE = "krillc: no signer's pipes stand in krill-data: signatures are a rehearsal's, which no relying party accepts\n"
ODD = "neither a FIFO nor a regular file"
DENIED = "Permission denied (os error 13)"
ASIDE = "stays\n"
# So many bytes lie in a FIFO that takes no more, but for less than a reply's.
NEARLY_FULL = 50_000


def update(number, ca="ta"):
    return json.dumps({"command": "roas update", "ca": ca, "add": [f"10.{number // 256}.{number % 256}.0/24 => 1"]})


def path(store, number, which):
    return store.path(f"session-{number}.{which}")


def write(at, content=""):
    with open(at, "w", encoding="ascii") as file:
        file.write(content)


def read(at):
    with open(at, encoding="ascii") as file:
        return file.read()


def run(store, *words, lines=""):
    return run_in(store.folder, *(words or ["run"]), lines=lines)


def refusal(number, which, why):
    """What standard error has where a run ends by that file."""
    return f"{NOTE}krillc: krill-data/session-{number}.{which}: {why}\nkrillc: device failed\n"


def accepted(place):
    return f'{{"authority":"ta","count":{place},"reply":"accepted"}}\n'


def check(holds, what, *seen):
    if not holds:
        fail(f"{what}: {seen}")


def until(holds, what):
    ends = time.monotonic() + LONGEST
    while not holds():
        check(time.monotonic() < ends, what, "not within a while")
        time.sleep(0.01)


def bytes_in(stream):
    return struct.unpack("i", fcntl.ioctl(stream, termios.FIONREAD, bytes(4)))[0]


# ---- what stands there

def links_and_folders(folder):
    """What is neither a FIFO nor a regular file in a session's place is named, and no line is read."""
    number, tried = NUMBERS[0], 0
    for which in ("in", "out"):
        for kind in ("link to a FIFO", "link to a file", "link to nothing", "folder", "socket"):
            store = Store(f"{folder}-{which}-{kind.replace(' ', '-')}")
            aside = store.path("aside")
            other = "out" if which == "in" else "in"
            write(path(store, number, other), update(1) + "\n")
            odd_in_place(kind, aside, path(store, number, which))
            refuses(store, number, which, ODD)
            check(read(path(store, number, other)) == update(1) + "\n", f"a {kind} as .{which}: the other file was written")
            check(os.path.exists(aside) == (kind in ("link to a FIFO", "link to a file")), f"a {kind}: {aside} was made")
            check(not os.path.isfile(aside) or read(aside) == ASIDE, f"a {kind}: what it leads to was written")
            tried += 1
    return tried


def refuses(store, number, which, why):
    """A run ends by that file before it reads a line."""
    done = run(store, lines=update(0) + "\n")
    check((done.returncode, done.stdout, done.stderr) == (4, "", refusal(number, which, why)),
          f"session-{number}.{which}, which is to be refused: {why}", done)
    check(os.path.getsize(store.path("desk-00")) <= 17, f"session-{number}.{which}: a command was taken")


def files_without_permission(folder):
    """A file that krillc may not both read and write is refused and stays as it is; who is root may do either."""
    if os.geteuid() == 0:
        return 0
    number, tried = NUMBERS[0], 0
    for which in ("in", "out"):
        for kind in ("file", "FIFO"):
            for mode in (0o400, 0o200):
                store = Store(f"{folder}-{which}-{kind}-{mode:o}")
                place, other = path(store, number, which), path(store, number, "out" if which == "in" else "in")
                write(other, update(1) + "\n")
                os.mkfifo(place) if kind == "FIFO" else write(place, ASIDE)
                os.chmod(place, mode)
                refuses(store, number, which, DENIED)
                check(read(other) == update(1) + "\n", f"a {kind} of mode {mode:o} as .{which}: the other file was written")
                os.chmod(place, 0o600)
                check(kind == "FIFO" or read(place) == ASIDE, f"a {kind} of mode {mode:o} was written")
                tried += 1
    return tried


def odd_in_place(kind, aside, place):
    if kind == "folder":
        os.mkdir(place)
    elif kind == "socket":
        import socket
        here = os.getcwd()
        os.chdir(os.path.dirname(place))
        socket.socket(socket.AF_UNIX).bind(os.path.basename(place))
        os.chdir(here)
    else:
        os.mkfifo(aside) if kind.endswith("FIFO") else write(aside, ASIDE) if kind.endswith("file") else None
        os.symlink(aside, place)


def one_without_the_other(folder):
    """Lines alone: the replies' file is made. Replies alone: no session, and it stays as it is."""
    store = Store(folder)
    write(path(store, NUMBERS[0], "in"), update(0) + "\n")
    write(path(store, NUMBERS[1], "out"), "stays\n")
    done = run(store)
    told = read(path(store, NUMBERS[0], "out"))
    check(done.returncode == 0 and told == accepted(1), "lines without a file for replies", done, told)
    check(read(path(store, NUMBERS[1], "out")) == "stays\n", "replies without lines were written")
    return 2


def regular_files(folder):
    """They end where the file does, in any gap of numbers, and replies take the place of what was there. Other numbers are
    no sessions."""
    store = Store(folder)
    taken = NUMBERS[3]
    write(path(store, taken, "in"), update(0) + "\n" + update(1))
    write(path(store, taken, "out"), "left from before, and longer than the replies\n" * 9)
    strangers = [number for number in (0, 1, 9, 10) if number not in NUMBERS]
    for number in strangers:
        write(path(store, number, "in"), update(5) + "\n")
    done = run(store)
    check(done.returncode == 0 and read(path(store, taken, "out")) == accepted(1) + accepted(2), "regular files", done)
    for number in strangers:
        check(not os.path.exists(path(store, number, "out")), f"session-{number}.in was taken for a session")
    return 1 + len(strangers)


def files_and_fifos(folder):
    """Lines of a file with replies to a FIFO, whoever is there; and lines of a FIFO with replies to a file."""
    store = Store(folder)
    number = NUMBERS[0]
    lines, replies = path(store, number, "in"), path(store, number, "out")
    os.mkfifo(replies)
    write(lines, update(0) + "\n")
    done = run(store)
    check((done.returncode, done.stderr) == (0, NOTE), "replies to a FIFO with nobody there", done)
    write(lines, update(1) + "\n")
    heard = os.open(replies, os.O_RDONLY | os.O_NONBLOCK)
    done = run(store)
    told = os.read(heard, 1 << 16).decode()
    os.close(heard)
    check((done.returncode, done.stderr, told) == (0, NOTE, accepted(2)), "replies to a FIFO", done, told)
    store.remove_sessions()
    os.mkfifo(lines)
    write(replies, "left from before, and longer than the replies\n" * 9)
    program = start(store.folder, "run")
    until(lambda: read(replies) == "", "a file for replies beside a FIFO is cut off")
    with os.fdopen(os.open(lines, os.O_RDWR), "w") as client:
        client.write(update(2) + "\n")
    until(lambda: read(replies) == accepted(3), "replies to a file beside a FIFO")
    program.send_signal(signal.SIGTERM)
    check(program.wait(LONGEST) == -signal.SIGTERM, "a signal ends it otherwise", program.returncode)
    return 3


def audits_and_workloads(folder):
    """They take no sessions: FIFOs and files stay as they are."""
    store = Store(folder)
    os.mkfifo(path(store, NUMBERS[0], "in"))
    write(path(store, NUMBERS[1], "in"), update(0) + "\n")
    for words in (("audit",), ("workload", "--number", "1")):
        done = run(store, *words)
        check(done.returncode == 0 and not os.path.exists(path(store, NUMBERS[1], "out")), words, done)
    return 2


# ---- what clients do

class Beside:
    """A krillc with clients at FIFOs."""

    def __init__(self, folder, count):
        self.store = Store(folder)
        self.clients = [AtFifos(self.store, number, [], 1 << 20) for number in NUMBERS[:count]]
        self.program = start(self.store.folder, "run", stdin=subprocess.PIPE, stdout=subprocess.PIPE)
        self.standard = None if 0 in NUMBERS else AtStreams("session 1", [], 1 << 20)
        for client in self.clients:
            client.open(self.program)
        if self.standard:
            self.standard.open(self.program)

    def give(self, client, *texts):
        client.texts += texts
        client.give(len(texts))

    def ask(self, client, text):
        before = len(client.session.heard)
        self.give(client, text)
        until(lambda: [client.hear()] and len(client.session.heard) > before, f"{client.session.name}: {text}")
        return client.session.heard[-1].reply

    def end(self):
        check(self.program.poll() is None, "krillc has ended", self.program.poll())
        self.program.send_signal(signal.SIGTERM)
        check(self.program.wait(LONGEST) == -signal.SIGTERM, "a signal ends it otherwise", self.program.returncode)
        for client in self.clients:
            client.close()


def clients_that_leave(folder):
    """A session goes on behind a client that left, with its reply for the next one; and without anybody at standard input."""
    beside = Beside(folder, 2)
    one, other = beside.clients
    check(beside.ask(one, update(0)).get("count") == 1, "a first line")
    beside.give(one, update(1))
    one.close()
    check(beside.ask(other, json.dumps({"command": "list"})).get("reply") == "list", "another session meanwhile")
    one.come()
    until(lambda: one.hear() or len(one.session.heard) == 2, "the reply that was left")
    check(one.session.heard[1].reply.get("count") == 2, "the reply that was left", one.session.heard[1])
    one.close()
    if beside.standard:
        beside.standard.close()
    one.come()
    check(beside.ask(one, update(2)).get("count") == 3, "a client that came back, with nobody at standard input")
    half = update(3) + "\n"
    os.write(one.input, half[:20].encode())
    one.close()
    one.come()
    os.write(one.input, half[20:].encode())
    one.session.sent.append(None)
    until(lambda: one.hear() or len(one.session.heard) == 4, "a line in two pieces")
    check(one.session.heard[3].reply.get("count") == 4, "a line whose second half came later", one.session.heard[3])
    beside.end()
    return 4


def clients_that_do_not_read(folder):
    """A session whose replies nobody reads stops at a full FIFO, and holds up nobody else."""
    beside = Beside(folder, 2)
    lazy, other = beside.clients
    check(beside.ask(other, '{"command":"add","ca":"isp"}').get("count") == 1, "a name")
    for number in range(40):
        check(beside.ask(other, update(number)).get("count") == number + 2, "a command")
    beside.give(lazy, *['{"command":"history commands","ca":"ta"}'] * 200)
    time.sleep(1)
    for number in range(40, 60):
        check(beside.ask(other, update(number)).get("count") == number + 2, "a command while a FIFO is full")
    check(beside.ask(other, '{"command":"publish"}').get("serial") == 1, "a publication while a FIFO is full")
    check(bytes_in(lazy.output) >= NEARLY_FULL, "the FIFO that nobody reads isn't full", bytes_in(lazy.output))
    until(lambda: [lazy.hear()] and len(lazy.session.heard) == 200, "all replies in the end")
    beside.end()
    return 1


def each_waits_for_the_other(folder):
    """Two sessions run at the same time: one after the other, in either order, one would wait for what isn't there."""
    store = Store(folder)
    wait = '{"command":"await","serial":%d,"looks":1000000000}\n'
    first = "".join(update(number) + "\n" for number in range(50)) + '{"command":"publish"}\n' + wait % 2
    second = "".join(update(number) + "\n" for number in range(50, 100)) + wait % 1 + update(100) + '\n{"command":"publish"}\n'
    texts = dict(zip(NUMBERS, (first, second)))
    for number, text in texts.items():
        write(path(store, number, "in"), text)
    done = run(store)
    told = {number: [json.loads(line) for line in read(path(store, number, "out")).splitlines()] for number in texts}
    one, other = told.values()
    check(done.returncode == 0 and len(one) == 52 and len(other) == 53, "two sessions that wait", done, len(one), len(other))
    serials = [reply.get("serial") for reply in (one[50], one[51], other[50], other[52])]
    check(serials == [1, 2, 1, 2], "two sessions that wait for each other", one[50:], other[50:])
    store.remove_sessions()
    lines = store.found()["ta"]
    mine = [json.loads(text) for text in (first + second).splitlines() if "roas update" in text]
    found = [line["add"] for line in lines]
    check(sorted(found) == sorted(line["add"] for line in mine), "the commands of both")
    for text in (first, second):
        asked = [json.loads(line)["add"] for line in text.splitlines() if "roas update" in line]
        check([add for add in found if add in asked] == asked, "a session's commands in its order")
    return 1


TRIED = (links_and_folders, files_without_permission, one_without_the_other, regular_files, files_and_fifos,
         audits_and_workloads, clients_that_leave, clients_that_do_not_read, each_waits_for_the_other)


def try_ends():
    """How many cases there were."""
    global NUMBERS
    NUMBERS = numbers_of_files()
    return sum(trial(trial.__name__) for trial in TRIED)
