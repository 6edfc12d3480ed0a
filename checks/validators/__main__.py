"""Debian's relying parties and openssl over what krillc exports, offline and by RRDP over TLS on loopback.

Usage: python3 checks/validators [--limits] [WORD..], as root. A word takes the samples whose names have it; without one
all are tried. --limits tells what relying parties do at their limits, and judges nothing. KRILLC=PROGRAM takes another
program than crates/krillc/out/krillc. Everything goes on in namespaces of its own, without a network. Ends with the
table of docs/relying-parties.md. Status 0: no object was refused and no payload differs; 1: one was or did; 3:
something that it needs is missing."""
import os, signal, sys, tempfile, time

# The folder stays as it is.
sys.dont_write_bytecode = True

import by_openssl, loopback, needs, parties, table
from limits import try_limits, wait_until
from program import Failed, Program
from repository import Wrong, read_exported, spoiled
from samples import SAMPLES

TOP = os.path.dirname(os.path.dirname(os.path.dirname(os.path.abspath(__file__))))
KRILLC = os.path.abspath(os.environ.get("KRILLC") or os.path.join(TOP, "crates", "krillc", "out", "krillc"))
MISSING, ENDED_BY_SIGTERM = 3, 143
INSIDE, LIMITS = "--inside", "--limits"
# How many complaints of one look are printed in full.
SHOWN = 5


def ask_all(program, edition):
    """Gives the lines of an edition, of which the last one publishes. The reply to that one."""
    replies = [program.ask(line) for line in edition.lines]
    refused = [reply for reply in replies[:-1] if "refused" in reply]
    if len(refused) != edition.refused:
        raise Failed(f"{len(refused)} lines are refused, and {edition.refused} have to be: {refused}")
    if replies[-1].get("reply") != "published":
        raise Failed(f"nothing is published: {replies[-1]}")
    return replies[-1]


def judged(found, wanted, exported):
    """The complaints of a look, and what differs in its payloads and in what it counted."""
    lines = [*found.complaints]
    lines += [f"missing: {row}" for row in sorted(wanted - found.payloads)]
    lines += [f"not owed: {row}" for row in sorted(found.payloads - wanted)]
    for kind, count in found.counts.items():
        stand = len(exported.of_kind(kind))
        if count != stand:
            lines.append(f"it counted {count} {kind} where {stand} stand")
    return lines


def tell(who, lines):
    for line in lines[:SHOWN]:
        print(f"    {who}: {line}")
    if len(lines) > SHOWN:
        print(f"    {who}: and {len(lines) - SHOWN} more")


class Trial:
    """A sample on its way: krillc with its signers, and whoever looks at what it exports."""

    def __init__(self, sample, server, folder):
        self.sample, self.server, self.folder = sample, server, folder
        self.program = Program(KRILLC, os.path.join(folder, "krill"), sample.signers, sample.is_late)
        self.result = table.Result(sample)
        self.follower = None
        # Locator and session of the first edition: they stay.
        self.first = None

    def publish(self, edition):
        """Publishes an edition. What is exported then, and the payloads that relying parties have to find."""
        # HTTP tells times in whole seconds: a notification of the second in which the one before it was fetched would
        # be taken for that one.
        wait_until(int(time.time()))
        if edition.is_behind_restart:
            self.program.restart()
        if self.sample.is_late:
            self.program.set_late(edition.late)
        reply = ask_all(self.program, edition)
        origins = self.program.published_origins()
        if origins != {*edition.origins}:
            raise Failed(f"roas list shows other origins than it has to: {sorted(origins ^ {*edition.origins})[:9]}")
        exported = read_exported(self.program.repository)
        if (exported.serial, len(exported.objects)) != (reply["serial"], reply["objects"]):
            raise Failed(f"exported are {len(exported.objects)} objects of serial {exported.serial}, not {reply}")
        known = exported.locator, exported.session
        self.first = self.first or known
        if known != self.first:
            raise Failed("an edition has another locator or session than the first one")
        wait_until(reply["moment"])
        return exported, {parties.payload_of_origin(text) for text in origins}

    def look_on(self, exported):
        """What the one that runs all the time finds in its next round."""
        if self.follower is None:
            self.follower = parties.FortServer(exported, os.path.join(self.folder, "follower"))
            return self.follower.look(0, exported)
        return self.follower.look(len(self.follower.rounds()), exported)

    def looks(self, exported):
        """Each look at an edition: who looks, and what was found."""
        yield "openssl", by_openssl.look(exported, self.folder)
        for party in parties.PARTIES:
            folder = os.path.join(self.folder, party.package)
            yield f"{party.name} offline", parties.look_offline(party, exported, folder + "-offline")
            found = parties.look_online(party, exported, folder + "-online")
            yield f"{party.name} RRDP", self.with_fetched(party, found)
        if self.sample.is_followed:
            yield table.FOLLOWER, self.with_fetched(parties.FortServer, self.look_on(exported))

    def with_fetched(self, party, found):
        """With what a relying party was handed out, and with what the server refused it."""
        snapshots, deltas, refused = self.server.take_asked(party.agent)
        found.complaints += refused
        found.fetched = snapshots, deltas
        return found

    def try_edition(self, edition):
        exported, wanted = self.publish(edition)
        if edition.late:
            return
        self.server.folder = self.program.repository
        if self.sample.is_spoiled:
            self.server.folder = os.path.join(self.folder, "spoiled")
            exported = spoiled(exported, self.server.folder)
        self.result.begin_edition(exported, wanted)
        for who, found in self.looks(exported):
            lines = judged(found, wanted, exported)
            if self.sample.is_spoiled:
                lines = [] if lines else ["a signature was spoiled, and nothing is refused"]
            self.result.add(who, lines, found.fetched)
            tell(who, lines)

    def run(self):
        """Goes through the sample's editions, and looks at each while krillc still runs."""
        try:
            for edition in self.sample.editions:
                self.try_edition(edition)
            status = self.program.close()
            if status:
                raise Failed(f"krillc ended with status {status}")
        except (Failed, Wrong) as error:
            self.result.failed = str(error)
            tell("sample", [self.result.failed])
        finally:
            self.program.kill()
            if self.follower:
                self.follower.close()
        return self.result


def start_server(scratch):
    """The network of these namespaces, and the server in it."""
    os.chmod(scratch, 0o755)
    network = os.path.join(scratch, "network")
    loopback.set_up(network)
    return loopback.Server(network)


def try_all(chosen, server, scratch):
    results = []
    for number, sample in enumerate(chosen):
        print(f"{sample.name}", flush=True)
        folder = os.path.join(scratch, str(number))
        os.makedirs(folder)
        results.append(Trial(sample, server, folder).run())
        print(f"  {results[-1].line()}", flush=True)
    return results


def main(words):
    inside = INSIDE in words
    missing = needs.what_is_missing(KRILLC)
    for line in missing:
        print(f"validators: {line}", file=sys.stderr)
    if missing:
        print("validators: nothing was tried; docs/relying-parties.md says what to install", file=sys.stderr)
        return MISSING
    if not inside:
        loopback.in_namespaces([sys.executable, os.path.dirname(os.path.abspath(__file__)), INSIDE, *words])
    words = [word for word in words if word != INSIDE]
    signal.signal(signal.SIGTERM, lambda *_: sys.exit(ENDED_BY_SIGTERM))
    with tempfile.TemporaryDirectory(prefix="validators-") as scratch:
        server = start_server(scratch)
        if words[:1] == [LIMITS]:
            try_limits(KRILLC, server, scratch, words[1:])
            return 0
        chosen = [it for it in SAMPLES if not words or any(word in it.name for word in words)]
        results = try_all(chosen, server, scratch)
    print("\n" + table.table(results))
    bad = [it for it in results if not it.is_good()]
    print(f"{len(results) - len(bad)} samples passed, {len(bad)} failed")
    return 1 if bad else 0


if __name__ == "__main__":
    sys.exit(main(sys.argv[1:]))
