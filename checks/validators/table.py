"""What was found, as a table."""
import parties

LOOKS = ["openssl", *(f"{party.name} {way}" for party in parties.PARTIES for way in ("offline", "RRDP"))]
# The one that follows some samples alone.
FOLLOWER = parties.FortServer.name


class Result:
    """What each relying party found in the editions of a sample."""

    def __init__(self, sample):
        self.name, self.failed = sample.name, None
        self.looks = [*LOOKS, FOLLOWER] if sample.is_followed else LOOKS
        self.editions, self.objects, self.payloads, self.deltas = 0, [], [], 0
        # By who looked: how many editions were found as they are.
        self.good = dict.fromkeys(self.looks, 0)
        self.fetched = {}

    def begin_edition(self, exported, payloads):
        self.editions += 1
        self.objects.append(len(exported.objects))
        self.payloads.append(len(payloads))
        self.deltas += exported.deltas

    def add(self, who, complaints, fetched):
        self.good[who] += not complaints
        if fetched is not None:
            old = self.fetched.get(who, (0, 0))
            self.fetched[who] = old[0] + fetched[0], old[1] + fetched[1]

    def is_good(self):
        return self.failed is None and self.editions > 0 and all(self.good[it] == self.editions for it in self.looks)

    def line(self):
        fetched = ", ".join(f"{who} got {got[0]} snapshots and {got[1]} deltas" for who, got in self.fetched.items())
        return f"{'good' if self.is_good() else 'BAD'}: {self.editions} editions; {fetched}"


def series(numbers):
    """Numbers in their order, and one number once where they are all the same."""
    return ", ".join(f"{it:,}" for it in (numbers if len({*numbers}) > 1 else numbers[:1]))


def cell(result, who):
    """How many of the editions were found as they are."""
    if who not in result.looks:
        return ""
    return "all" if result.good[who] == result.editions > 0 else f"**{result.good[who]} of {result.editions}**"


def table(results):
    heads = ["sample", "editions", "objects", "payloads", *LOOKS, FOLLOWER]
    lines = ["| " + " | ".join(heads) + " |", "|" + "---|" * len(heads)]
    for result in results:
        cells = [result.name, str(result.editions), series(result.objects), series(result.payloads)]
        lines.append("| " + " | ".join([*cells, *(cell(result, who) for who in [*LOOKS, FOLLOWER])]) + " |")
    return "\n".join(lines)
