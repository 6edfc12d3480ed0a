"""krillc and the signers beside it are killed at random moments of publications, and started again."""
import random, signal, time

from krillc import Store
from parts import ROUNDS, fail, kill

# The longest that a turn of kills may take, in seconds: a publication has a key made for each new origin.
LONGEST = 900
# For how many seconds a publication whose signers were killed may have no answer once they serve again.
BOUND = 60
# Which of two signers are killed, in turn.
KILLED = ((0,), (1,), (0, 1))


class Kills(Store):
    """A store with two signers, whose publications are cut off."""

    def __init__(self):
        super().__init__("daemon", "isp")
        self.refused, self.longest = 0, 0.0

    def kill_daemon(self):
        """krillc is killed and started again at once, sometimes before a signer that was stopped goes on."""
        stopped = [signer.program for signer in self.signers if random.random() < 0.2]
        for program in stopped:
            program.send_signal(signal.SIGSTOP)
        if stopped:
            time.sleep(random.uniform(0, 0.1))
        kill(self.daemon.program)
        self.start_daemon()
        for program in stopped:
            time.sleep(random.uniform(0, 0.2))
            program.send_signal(signal.SIGCONT)
        self.find()

    def kill_signers(self, numbers):
        """Signers are killed, sometimes after they were stopped, and started again at once. The publication is done, or
        refused by the fault of one of them, without another kill."""
        killed = [self.signers[number] for number in numbers]
        if random.random() < 0.3:
            for signer in killed:
                signer.program.send_signal(signal.SIGSTOP)
            time.sleep(random.uniform(0, 0.1))
        began = time.monotonic()
        for signer in killed:
            signer.start_again()
        reply = self.await_reply(killed)
        self.longest = max(self.longest, time.monotonic() - began)
        if reply.get("reply") == "published":
            self.serial += 1
        elif reply.get("refused") == "SignerFault" and reply["detail"] in map(str, numbers):
            self.refused += 1
        else:
            fail(f"a publication whose signers {numbers} were killed: {reply}")
        for signer in killed:
            signer.await_start()

    def await_reply(self, killed):
        served_since = None
        while not self.daemon.replies_within(0.05):
            now = time.monotonic()
            if served_since is None and all(signer.serves() for signer in killed):
                served_since = now
            if served_since and now - served_since > BOUND:
                fail(f"a publication has no answer {BOUND} seconds after its killed signers serve again")
        return self.daemon.reply()

    def told(self):
        kept = f", {self.kept} editions found that no reply had told" if self.kept else ""
        return (f"{self.published} publications with {self.judged} objects that openssl judged, {self.refused} refused "
                f"as their signer was killed; the longest answer behind such a kill took {self.longest:.1f} s{kept}")


def too_long(_number, _frame):
    fail(f"a turn of kills takes more than {LONGEST} seconds")


def origins(third, asn):
    """An origin of each authority that stays, and one that is new."""
    return {
        "ta": {"10.0.0.0/16-24 => 64496", f"10.2.{third}.0/24 => {asn}"},
        "isp": {"10.16.0.0/16 => 64497", f"10.18.{third}.0/24 => {asn}"},
    }


def kill_publications():
    """krillc, and then one of its two signers or both, are killed at random moments of publications, and the next one is
    right at once. Gives how many publications that were, and how many objects openssl judged."""
    signal.signal(signal.SIGALRM, too_long)
    store = Kills()
    store.publish(origins(0, 64498))
    for turn in range(ROUNDS):
        killed = KILLED[turn % len(KILLED)]
        for asn, kill_some in ((64500, lambda: store.kill_signers(killed)), (64501, store.kill_daemon)):
            signal.alarm(LONGEST)
            store.update(origins(turn % 256, asn))
            store.daemon.send(command="publish")
            time.sleep(random.uniform(0, 1.2 * store.took))
            kill_some()
            store.publish(origins(turn % 256, asn + 10))
    signal.alarm(0)
    store.end()
    return store.told()
