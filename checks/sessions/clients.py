"""Clients of sessions: at standard streams, at FIFOs and with regular files. What each gives and hears is kept, and when."""
import errno, json, os, select, time

from logs import ALWAYS, NEVER, Heard, Session, sent
from parts import fail

PIECE = 65536


class Client:
    """Gives lines while not too many are without a reply, and hears replies. The streams are descriptors that don't wait."""

    def __init__(self, name, texts, window):
        self.session, self.texts, self.window = Session(name), list(texts), window
        self.input = self.output = None
        self.rest = b""

    def is_done(self):
        return not self.texts and len(self.session.heard) == len(self.session.sent)

    def room(self):
        return min(len(self.texts), self.window - len(self.session.sent) + len(self.session.heard))

    def give(self, count):
        """Gives the next lines at once."""
        texts, now = [self.texts.pop(0) for _ in range(count)], time.monotonic()
        self.session.sent += [sent(text, now) for text in texts]
        given = "".join(text + "\n" for text in texts).encode()
        try:
            if os.write(self.input, given) != len(given):
                fail(f"{self.session.name}: its input takes no {len(given)} bytes")
        except BrokenPipeError:
            # The program was killed: these lines have no reply.
            self.texts.clear()

    def hear(self):
        """Hears what is there. Whether there may be more."""
        try:
            piece = os.read(self.output, PIECE)
        except BlockingIOError:
            return False
        now = time.monotonic()
        *whole, self.rest = (self.rest + piece).split(b"\n")
        self.session.heard += [Heard(json.loads(line), now) for line in whole]
        return bool(piece)

    def hear_all(self):
        while self.hear():
            pass

    def end(self):
        """What is left to hear behind the program's end."""
        self.hear_all()
        self.close()

    def close(self):
        for stream in (self.input, self.output):
            if stream is not None:
                os.close(stream)
        self.input = self.output = None


class AtStreams(Client):
    """At the program's standard input and output, which are pipes."""

    def open(self, program):
        self.input, self.output = (os.dup(stream.fileno()) for stream in (program.stdin, program.stdout))
        for stream in (program.stdin, program.stdout):
            stream.close()
        for stream in (self.input, self.output):
            os.set_blocking(stream, False)

    def come_and_go(self, draw):
        pass


class AtFifos(Client):
    """At the FIFOs of a session, which the program holds open: a client may leave them and come back."""

    def __init__(self, store, number, texts, window):
        super().__init__(f"session {number}", texts, window)
        self.paths = [store.path(f"session-{number}.{which}") for which in ("in", "out")]
        for path in self.paths:
            os.mkfifo(path, 0o660)

    def open(self, program):
        """Waits until the program has the FIFOs open."""
        ends = time.monotonic() + 300
        while self.input is None:
            try:
                self.input = os.open(self.paths[0], os.O_WRONLY | os.O_NONBLOCK)
            except OSError as error:
                if error.errno != errno.ENXIO or program.poll() is not None or time.monotonic() > ends:
                    fail(f"{self.session.name}: nobody opens {self.paths[0]}: {error}, status {program.poll()}")
                time.sleep(0.002)
        self.output = os.open(self.paths[1], os.O_RDONLY | os.O_NONBLOCK)

    def come_and_go(self, draw):
        """Leaves, sometimes before it has its replies, and comes back."""
        if draw.random() < 0.02:
            self.close()
            self.come()

    def come(self):
        self.input = os.open(self.paths[0], os.O_WRONLY | os.O_NONBLOCK)
        self.output = os.open(self.paths[1], os.O_RDONLY | os.O_NONBLOCK)


class WithFiles:
    """With regular files: all lines are there before the program starts, and replies are read behind its end."""

    def __init__(self, paths, name, texts):
        self.session, self.paths = Session(name), paths
        self.session.sent = [sent(text, ALWAYS) for text in texts]
        for path, content in zip(paths, ("".join(text + "\n" for text in texts), "left from before\n")):
            with open(path, "w", encoding="ascii") as file:
                file.write(content)

    def is_done(self):
        return len(self.session.heard) == len(self.session.sent)

    def end(self):
        with open(self.paths[1], "rb") as file:
            *whole, _ = file.read().split(b"\n")
        if whole[:1] != [b"left from before"]:
            self.session.heard = [Heard(json.loads(line), NEVER) for line in whole]


def serve(draw, program, clients, until):
    """Lets clients go on in a random order until all have their replies, or that time is there, or the program is gone."""
    poll = select.poll()
    while time.monotonic() < until and not all(client.is_done() for client in clients) and program.poll() is None:
        for client in draw.sample(clients, len(clients)):
            client.come_and_go(draw)
            room = client.room()
            if room > 0:
                client.give(draw.randrange(1, room + 1))
            client.hear()
        waiting = [client.output for client in clients if not client.is_done()]
        for stream in waiting:
            poll.register(stream, select.POLLIN)
        poll.poll(2)
        for stream in waiting:
            poll.unregister(stream)
    return all(client.is_done() for client in clients)
