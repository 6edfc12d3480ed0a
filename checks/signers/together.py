"""All signers of a publication at work at the same time: eight of them, each of which begins with a step only once all
are asked for their part of it. A krillc that asked one after another would wait for the first of them for ever."""
import itertools, threading

from krillc import Daemon, judge, make_pipes, play_signer
from parts import fail, kill
from played import Keeper

FOLDER, SIGNERS = "together", 8
# For how many seconds a signer that was asked waits for the others to be.
BOUND = 120
ANCHOR, ORIGIN = "ta", "10.{}.0.0/16 => 64496"


def steps_of(number):
    """How often the signer is asked in each of the four steps of a first edition: for certificates of authorities, of
    which the anchor issues all, a CRL and the content of a ROA; for that ROA's certificate; for the content of a
    manifest; and for that one's certificate."""
    certificates = SIGNERS if number == 0 else 0
    return certificates + 2, 1, 1, 1


class Gathering:
    """Where signers wait for one another at the beginning of each step."""

    def __init__(self, keeper):
        self.keeper = keeper
        self.gate = threading.Barrier(SIGNERS)
        self.met, self.alone = 0, None

    def play(self, number):
        """Plays the signer of that number."""
        lengths = steps_of(number)
        firsts = list(itertools.accumulate(lengths[:-1], initial=0))
        asked = itertools.count()

        def reply(line):
            if line.split()[0] in (b"sign", b"once") and (count := next(asked)) in firsts:
                if not self.meets(number, firsts.index(count)):
                    return None
            return self.keeper.answer(line)

        return play_signer(f"{FOLDER}/krill-data/signer-{number}", b"", reply)

    def meets(self, number, step):
        """Whether all come to the beginning of the step."""
        try:
            if self.gate.wait(BOUND) == 0:
                self.met += 1
        except threading.BrokenBarrierError:
            self.alone = self.alone or f"step {step + 1}, signer {number}"
            return False
        return True


def lines():
    """The lines in front of the publication: an authority at each signer, which has an origin."""
    for number in range(SIGNERS):
        name = f"a{number}" if number else ANCHOR
        if number:
            yield {"command": "add", "ca": name, "signer": number}
            yield {"command": "children add", "ca": ANCHOR, "child": name, "resources": {"ipv4": f"10.{number}.0.0/16"}}
            yield {"command": "parents add", "ca": name, "parent": ANCHOR}
        yield {"command": "roas update", "ca": name, "add": [ORIGIN.format(number)]}


def try_all():
    """Publishes by the eight. Gives how many steps they met in."""
    for number in range(SIGNERS):
        make_pipes(f"{FOLDER}/krill-data/signer-{number}")
    keeper = Keeper(f"{FOLDER}-keys")
    gathering = Gathering(keeper)
    players = [gathering.play(number) for number in range(SIGNERS)]
    daemon = Daemon(FOLDER)
    for line in lines():
        if daemon.ask(**line).get("reply") != "accepted":
            fail(f"{line} is refused")
    reply = daemon.ask(command="publish")
    if gathering.alone:
        fail(f"in {gathering.alone} waited {BOUND} seconds, and the others weren't asked meanwhile: {reply}")
    if reply.get("reply") != "published" or gathering.met != len(steps_of(0)):
        fail(f"{SIGNERS} signers met in {gathering.met} steps: {reply}")
    judge(FOLDER, reply, map(ORIGIN.format, range(SIGNERS)))
    kill(daemon.program)
    for player in players:
        player.join()
    keeper.end()
    return f"{SIGNERS} signers at work at once in each of {gathering.met} steps"
