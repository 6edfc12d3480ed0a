"""The program over a place, and the lines that it is given."""
import itertools, json, os, subprocess, sys

from place import Wrong

KRILLC = os.path.abspath(sys.argv[1])
PUBLISH, SERIAL = {"command": "publish"}, {"command": "serial"}
NUMBERS = itertools.count(1)


def text(*lines):
    return b"".join((json.dumps(line) + "\n").encode() for line in lines)


def first_lines():
    """An authority below the anchor, with an origin."""
    resources = {"asn": "AS1", "ipv4": "10.0.0.0/8", "ipv6": ""}
    return [
        {"command": "add", "ca": "isp", "signer": 0},
        {"command": "children add", "ca": "ta", "child": "isp", "resources": resources},
        {"command": "parents add", "ca": "isp", "parent": "ta"},
        many(1),
    ]


def many(count, first=0):
    """So many origins more."""
    origins = [f"10.{number // 256}.{number % 256}.0/24 => 1" for number in range(first, first + count)]
    return {"command": "roas update", "ca": "isp", "add": origins}


def change():
    """A line that always changes what there is to publish, whatever came before it."""
    resources = {"asn": f"AS{next(NUMBERS)}", "ipv4": "10.0.0.0/8", "ipv6": ""}
    return {"command": "children update", "ca": "ta", "child": "isp", "resources": resources}


def start(place, **more):
    """The program, whose pipes have no buffers here."""
    return subprocess.Popen(
        [KRILLC, "run"], cwd=place.work, stdin=subprocess.PIPE, stdout=subprocess.PIPE, bufsize=0,
        **{"stderr": subprocess.DEVNULL, **more})


class Run:
    """A run of the program, whose replies are taken from its pipe as they are wanted."""

    def __init__(self, place, **more):
        self.place, self.program, self.told = place, start(place, **more), b""

    def send(self, *lines):
        self.program.stdin.write(text(*lines))

    def hear(self, count):
        """Waits until so many replies are told in all."""
        while self.count() < count:
            self.take()

    def take(self):
        piece = os.read(self.program.stdout.fileno(), 65536)
        if not piece:
            raise Wrong(f"the program ended behind {self.told!r}")
        self.told += piece

    def count(self):
        return self.told.count(b"\n")

    def ask(self, line):
        """The reply to one line."""
        self.send(line)
        self.hear(self.count() + 1)
        return self.replies()[-1]

    def replies(self):
        """Those that are told whole."""
        return [json.loads(reply) for reply in self.told[:self.told.rfind(b"\n") + 1].splitlines()]

    def end(self):
        """Ends the input. Gives the status."""
        self.program.stdin.close()
        self.told += self.program.stdout.read()
        status = self.program.wait()
        self.program.stdout.close()
        return status

    def kill(self):
        self.program.kill()
        self.end()


def run_whole(place, lines):
    """The replies of a run that ends well."""
    run = Run(place)
    run.send(*lines)
    status = run.end()
    if status:
        raise Wrong(f"a run ended with status {status}")
    return run.replies()


def last_published(replies):
    """The serial and the count of objects of the last publication that was told, or zeros. Nothing may be refused."""
    last = 0, 0
    for reply in replies:
        if reply.get("reply") not in ("accepted", "published"):
            raise Wrong(f"a reply is {reply}")
        if reply["reply"] == "published":
            last = reply["serial"], reply["objects"]
    return last
