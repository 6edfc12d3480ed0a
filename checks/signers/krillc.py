"""krillc in a folder of its own, the signers beside it, and signers that are played."""
import json, os, re, select, sys, threading, time

from parts import KRILLC, POOL, await_that, fail, holds, kill, run_beside, start

sys.path.append(os.path.join(os.path.dirname(os.path.dirname(os.path.abspath(__file__))), "validators"))
import by_openssl
from parties import payload_of_origin
from repository import Wrong, read_exported

# What it says of a wait for the signer of the number 0.
WAITING = "krillc: waiting for signer 0 to open .*signer-0.in and .*signer-0.out and to answer"


class Daemon:
    """A krillc that runs in a folder."""

    def __init__(self, folder):
        self.program = run_beside([KRILLC, "run"], cwd=folder)

    def send(self, **command):
        self.program.stdin.write(json.dumps(command) + "\n")
        self.program.stdin.flush()

    def reply(self):
        line = self.program.stdout.readline()
        return json.loads(line) if line else {}

    def ask(self, **command):
        self.send(**command)
        return self.reply()

    def replies_within(self, seconds):
        return bool(select.select([self.program.stdout], [], [], seconds)[0])

    def said(self):
        """The next line on standard error."""
        return self.program.stderr.readline().rstrip("\n")

    def says_nothing(self, seconds):
        """Nothing comes on standard error for so long."""
        ready, _, _ = select.select([self.program.stderr], [], [], seconds)
        return not ready

    def forget_said(self):
        """Passes over what it has said on standard error."""
        self.says_nothing(0) or os.read(self.program.stderr.fileno(), 65536)

    def ended(self, status, *messages):
        """It has ended by itself, and said why."""
        self.program.stdin.close()
        self.program.wait()
        said = self.program.stderr.read()
        if self.program.returncode != status or any(message not in said for message in messages):
            fail(f"krillc: status {self.program.returncode} and {said!r}, expected {status} and {messages}")


def make_pipes(path):
    os.makedirs(os.path.dirname(path), exist_ok=True)
    for end_of_it in (".in", ".out"):
        os.mkfifo(path + end_of_it, 0o600)


def holds_pipes(program, path):
    return all(holds(program, path + end_of_it) for end_of_it in (".in", ".out"))


def play_signer(path, first, reply):
    """Plays a signer: writes this first, and then what the reply to each line is. Ends with the requests, or where
    there is no reply."""

    def play():
        with open(path + ".in", "wb", buffering=0) as answered, open(path + ".out", "rb", buffering=0) as asked:
            try:
                answered.write(first)
                for line in asked:
                    answer = reply(line)
                    if answer is None:
                        return
                    answered.write(answer)
            except BrokenPipeError:
                pass

    player = threading.Thread(target=play, daemon=True)
    player.start()
    return player


def judge(folder, reply, origins):
    """openssl takes every object of the edition that was answered, and they yield just these origins. Gives what is
    exported."""
    try:
        exported = read_exported(f"{folder}/krill-data/repo")
    except Wrong as wrong:
        fail(f"{folder}: {reply}: {wrong}")
    if (exported.serial, len(exported.objects)) != (reply["serial"], reply["objects"]):
        fail(f"{folder}: exported are {len(exported.objects)} objects of serial {exported.serial}, not {reply}")
    found = by_openssl.look(exported, f"{folder}-judged", reply["moment"])
    wanted = {payload_of_origin(text) for text in origins}
    if found.complaints or found.payloads != wanted:
        fail(f"{folder}: {reply}: {found.complaints} and {found.payloads}, not {wanted}")
    return exported


class Signer:
    """A krill-signer beside krillc, with a folder of keys of its own. The anchor's has a pool, and no other."""

    def __init__(self, folder, number):
        self.path = f"{folder}/krill-data/signer-{number}"
        self.keys = f"{folder}-keys-{number}"
        self.pool = POOL if number == 0 else ()
        make_pipes(self.path)
        self.start()

    def start(self):
        self.program = start(self.keys, *self.pool, "--fifos", self.path)

    def start_again(self):
        """It is killed, and started again at once."""
        kill(self.program)
        self.start()

    def await_start(self):
        """Waits until it serves the krillc that has its pipes open."""
        await_that(self.serves, "a signer's start", 600)

    def serves(self):
        return holds_pipes(self.program, self.path)


class Store:
    """krillc over a store of its own, and a signer for each of its authorities: the anchor, which has 10.0.0.0/12 for
    itself, and those right below it, the next one of which has 10.16.0.0/12."""

    def __init__(self, folder, *names):
        self.folder = folder
        self.origins = {name: set() for name in ("ta", *names)}
        self.published, self.judged, self.took = 0, 0, 0.5
        self.serial, self.locator, self.session, self.kept = 0, None, None, 0
        self.signers = [Signer(folder, number) for number in range(len(self.origins))]
        self.start_daemon()
        for number, name in enumerate(names, 1):
            self.accepted(command="add", ca=name, signer=number)
            self.accepted(command="children add", ca="ta", child=name, resources={"ipv4": f"10.{16 * number}.0.0/12"})
            self.accepted(command="parents add", ca=name, parent="ta")

    def start_daemon(self):
        self.daemon = Daemon(self.folder)

    def end(self):
        kill(self.daemon.program)
        for signer in self.signers:
            kill(signer.program)

    def accepted(self, **command):
        reply = self.daemon.ask(**command)
        if reply.get("reply") != "accepted":
            fail(f"{command}: {reply}")

    def update(self, origins):
        """Asks for these origins of authorities in the place of those that were asked for last."""
        for name, wanted in origins.items():
            new, old = sorted(wanted - self.origins[name]), sorted(self.origins[name] - wanted)
            self.accepted(command="roas update", ca=name, add=new, remove=old)
            self.origins[name] = wanted

    def publish(self, origins):
        """Publishes these origins. openssl takes every object that is exported then, and they yield just these."""
        self.update(origins)
        began = time.monotonic()
        reply = self.daemon.ask(command="publish")
        self.took = time.monotonic() - began
        if reply.get("reply") != "published" or reply["serial"] != self.serial + 1:
            fail(f"publication {self.published + 1} behind serial {self.serial}: {reply}")
        self.published += 1
        self.serial += 1
        exported = judge(self.folder, reply, set.union(*self.origins.values()))
        self.goes_on(exported.locator)
        self.judged += len(exported.objects)

    def goes_on(self, locator):
        """The anchor's locator and the session of RRDP are those of the first publication, whoever was killed."""
        with open(f"{self.folder}/krill-data/repo/notification.xml", encoding="ascii") as file:
            session = re.search('session_id="([^"]*)"', file.read())[1]
        if self.locator is None:
            self.locator, self.session = locator, session
        if (locator, session) != (self.locator, self.session):
            fail(f"publication {self.published}: another locator or session: {locator}, {session}")

    def find(self):
        """A start behind a kill, which has audited what stands: the serial that was told, or the next one where a reply
        wasn't heard."""
        found = self.daemon.ask(command="serial").get("serial")
        if found not in (self.serial, self.serial + 1):
            fail(f"serial {found} is found behind a kill, and {self.serial} was told")
        self.kept += found - self.serial
        self.serial = found
