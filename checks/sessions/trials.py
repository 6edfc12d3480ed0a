"""Sessions of random lines over one store: to the end of their files, and at FIFOs, killed and opened again. One store is on
disk, and another in memory, where no write takes long and sessions meet more often."""
import os, shutil, signal, subprocess, tempfile, time

from clients import AtFifos, AtStreams, WithFiles, serve
from judge import judged
from lines import Lines, first_lines
from parts import DRAW, SEED, TURNS, fail, numbers_of_files, start
from store import Store, seen_run

SESSIONS, LINES = 8, 60
# The longest that a turn which is killed may take, in seconds, on disk and in memory, and the longest that one may take that
# isn't.
KILLED_WITHIN, KILLED_IN_MEMORY, LONGEST = 3.0, 0.6, 600
# So many editions of a turn are audited each by itself, beside the last one.
AUDITED = 3
MEMORY = "/dev/shm"


class Turns:
    """Turns of sessions over one store, each judged by what it leaves."""

    def __init__(self, folder, killed_within):
        self.store, self.killed_within = Store(folder), killed_within
        self.store.ask(*first_lines(4))
        self.found, self.editions, self.turn = self.store.found(), 0, 0
        self.replies = self.strays = self.kills = self.audits = 0

    def texts(self):
        """The lines of each session."""
        drawn = [Lines(DRAW, SESSIONS * self.turn + number) for number in range(SESSIONS)]
        return [[each.next() for _ in range(LINES)] for each in drawn]

    def paths(self, number):
        return [self.store.path(f"session-{number}.{which}") for which in ("in", "out")]

    def with_files(self):
        """Every session at regular files: the program ends by itself."""
        texts, sessions = self.texts(), []
        if 0 not in numbers_of_files():
            paths = [self.store.folder + "/standard.in", self.store.folder + "/standard.out"]
            sessions.append(WithFiles(paths, "session 1", texts.pop()))
        for number, each in zip(numbers_of_files(), texts):
            sessions.append(WithFiles(self.paths(number), f"session {number}", each))
        with open(sessions[0].paths[0], "rb") as source, open(sessions[0].paths[1], "wb") as sink:
            status = start(self.store.folder, "run", stdin=source, stdout=sink).wait(LONGEST)
        if status:
            fail(f"a run of regular files ends with status {status}")
        for session in sessions:
            session.end()
        self.judge(sessions, True)

    def with_fifos(self, is_killed):
        """Clients at FIFOs, and one at standard streams, until the program is killed, or all is answered. Beside them some
        sessions are at regular files, where it is killed."""
        texts, clients, beside = self.texts(), [], []
        if 0 not in numbers_of_files():
            clients.append(AtStreams("session 1", texts.pop(), DRAW.choice((1, 4, 40))))
        for number, each in zip(numbers_of_files(), texts):
            if is_killed and DRAW.random() < 0.25:
                beside.append(WithFiles(self.paths(number), f"session {number}", each))
            else:
                clients.append(AtFifos(self.store, number, each, DRAW.choice((1, 4, 40))))
        program = start(self.store.folder, "run", stdin=subprocess.PIPE, stdout=subprocess.PIPE)
        for client in sorted(clients, key=lambda client: isinstance(client, AtStreams)):
            client.open(program)
        within = DRAW.uniform(0, self.killed_within) if is_killed else LONGEST
        is_done = serve(DRAW, program, clients, time.monotonic() + within)
        if program.poll() is not None or not (is_done or is_killed):
            fail(f"sessions at FIFOs: status {program.poll()}, and not every line has a reply")
        program.send_signal(signal.SIGKILL if is_killed else signal.SIGTERM)
        program.wait(LONGEST)
        for session in clients + beside:
            session.end()
        self.kills += is_killed
        self.judge(clients + beside, all(each.is_done() for each in clients + beside))

    def judge(self, sessions, is_whole):
        self.store.remove_sessions()
        run = seen_run(self.store, self.found, self.editions, [each.session for each in sessions], is_whole)
        complaints, strays = judged(run)
        if complaints:
            print(*complaints, sep="\n")
            fail(f"turn {self.turn}, by SEED={SEED}: {len(complaints)} complaints")
        self.audit(run)
        self.found, self.editions, self.turn = run.after, len(run.editions), self.turn + 1
        self.replies += sum(len(each.session.heard) for each in sessions)
        self.strays += strays

    def audit(self, run):
        told = self.store.audit()
        last = run.editions[-1].serial if run.editions else 0
        if told["serial"] != last:
            fail(f"an audit tells {told} of a store with {last} editions")
        made = range(self.editions + 1, last + 1)
        serials = sorted({*DRAW.sample(made, min(AUDITED, len(made))), *made[-1:]})
        self.store.audit_editions(serials, run.editions)
        self.audits += len(serials)

    def told(self):
        commands = sum(map(len, self.found.values()))
        return (f"{self.turn} turns of {SESSIONS} sessions, {self.kills} of them killed: {self.replies} replies, {commands}"
                f" commands and {self.editions} editions, {self.strays} of them found and not heard of;"
                f" {self.audits} editions audited alone")


def try_turns():
    """Four turns over the one store, and four over the other, in turn."""
    memory = tempfile.mkdtemp(dir=MEMORY) if os.path.isdir(MEMORY) else "."
    try:
        stores = Turns("turns", KILLED_WITHIN), Turns(os.path.join(memory, "turns-in-memory"), KILLED_IN_MEMORY)
        for number in range(TURNS):
            turns = stores[number // 4 % 2]
            match number % 4:
                case 0:
                    turns.with_files()
                case 3:
                    turns.with_fifos(False)
                case _:
                    turns.with_fifos(True)
        return f"{stores[0].told()}; in memory {stores[1].told()}"
    finally:
        if memory != ".":
            shutil.rmtree(memory)
