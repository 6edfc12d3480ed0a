"""The three relying parties: how each is run over a local folder and by RRDP, and what it says.

Each run gives what it found: the payloads as triples (prefix, maximum length, AS number), and a line for each
object that it refused or warned of, in its own words. What it always says stands in `USUAL` and isn't counted."""
import csv, ipaddress, json, os, re, shutil, subprocess, time
from dataclasses import dataclass, field

from repository import HOST, RSYNC, write, write_tree

# Relying parties run as a user without rights: two of them want no other.
NOBODY = 65534
LONGEST = 600


@dataclass
class Found:
    payloads: set
    complaints: list
    # How many objects of each kind it counted, where it says that.
    counts: dict = field(default_factory=dict)
    # How many snapshots and deltas it was handed out, where it asked a server.
    fetched: tuple = None


def payload(prefix, maximum, asn):
    return str(ipaddress.ip_network(prefix)), int(maximum), int(str(asn).removeprefix("AS"))


def payload_of_origin(text):
    """The payload of an origin's text, as `10.0.0.0/16-24 => 64496`."""
    prefix, asn = text.split(" => ")
    prefix, _, maximum = prefix.partition("-")
    return payload(prefix, maximum or prefix.split("/")[1], asn)


def printable(line):
    """The line as it can be shown: rpki-client 8.2 was seen to write rubbish in place of a message."""
    return "".join(letter if letter.isprintable() else "?" for letter in line)


def start(words, folder, output):
    """Starts a relying party in its folder, as a user without rights."""
    for place, _, _ in os.walk(folder):
        os.chown(place, NOBODY, NOBODY)
    environment = {"PATH": os.environ["PATH"], "HOME": folder, "LC_ALL": "C", "TZ": "UTC"}
    return subprocess.Popen(
        words, cwd=folder, env=environment, stdin=subprocess.DEVNULL, stdout=output, stderr=subprocess.STDOUT,
        user=NOBODY, group=NOBODY, extra_groups=[])


def unusual_lines(said, usual):
    lines = [printable(line) for line in said.decode(errors="replace").splitlines() if line.strip()]
    return [line for line in lines if not usual.search(line)]


def words_of_a_run(words, folder, usual):
    """Runs a relying party to its end: a line for each unusual one that it writes, and for a status but 0."""
    process = start(words, folder, subprocess.PIPE)
    try:
        said, _ = process.communicate(timeout=LONGEST)
    except subprocess.TimeoutExpired:
        process.kill()
        return [f"{words[0]} took more than {LONGEST} seconds"]
    return unusual_lines(said, usual) + ([f"status {process.returncode}"] if process.returncode else [])


def read_json(path, complaints):
    try:
        with open(path, encoding="utf-8") as file:
            return json.load(file)
    except (OSError, ValueError) as error:
        complaints.append(f"its output can't be read: {error}")
        return {}


class RpkiClient:
    name, package, agent = "rpki-client", "rpki-client", "OpenBSD rpki-client"
    USUAL = re.compile(
        r"^rpki-client: (ta/ta: (using cache|pulling from \S+|loaded from network)"
        rf"|{HOST}/repo: using cache|all files parsed: generating output"
        r"|https://\S+: (pulling from network|loaded from network|downloading (snapshot|\d+ deltas?)"
        r"|notification file not modified|repository not modified))"
        r"|^(Processing time|Skiplist entries|Route Origin Authorizations|AS Provider Attestations"
        r"|BGPsec Router Certificates|Certificates|Trust Anchor Locators|Manifests|Certificate revocation lists"
        r"|Ghostbuster records|Trust Anchor Keys|Repositories|Cleanup|VRP Entries|VAP Entries)\b")
    # What it counts, and the counts that have to be 0.
    SEEN = {"certificates": "cer", "crls": "crl", "manifests": "mft", "roas": "roa"}
    ZEROS = ("failedroas", "invalidroas", "invalidcertificates", "invalidtals", "failedmanifests", "stalemanifests")

    def prepare_offline(self, exported, folder):
        write_tree(os.path.join(folder, "cache"), exported.objects)
        write(os.path.join(folder, "cache", "ta", "ta", "ta.cer"), exported.anchor)

    def run(self, folder, online):
        os.makedirs(os.path.join(folder, "cache"), exist_ok=True)
        os.makedirs(os.path.join(folder, "out"), exist_ok=True)
        # By rsync it finds nothing, so that RRDP alone can give it something.
        way = ["-r", "-e", shutil.which("false")] if online else ["-n"]
        words = ["rpki-client", *way, "-v", "-j", "-d", os.path.join(folder, "cache"), "-t", "ta.tal", "out"]
        complaints = words_of_a_run(words, folder, self.USUAL)
        told = read_json(os.path.join(folder, "out", "json"), complaints)
        counts = told.get("metadata", {})
        complaints += [f"{word}: {counts[word]}" for word in self.ZEROS if counts.get(word)]
        rows = told.get("roas", [])
        payloads = {payload(row["prefix"], row["maxLength"], row["asn"]) for row in rows}
        return Found(payloads, complaints, {kind: counts.get(word) for word, kind in self.SEEN.items()})


class Fort:
    name, package, agent = "FORT", "fort-validator", "fort"
    USUAL = re.compile(
        r" INF: (Console log output configured|\((Validation|Operation) Logs will be sent)"
        r"| WRN: The validation has (begun|successfully ended)\."
        r"| WRN \[Validation\]: ta\.tal: Looking for the TA certificate at the local files\."
        r"| INF \[Validation\]: \S+: HTTP GET: https://"
        r"|(?P<offline>Couldn't fetch data from RRDP repository \S+, trying to fetch data now from)")
    # A busy machine may be slow.
    ONLINE = [
        "--rsync.enabled=false", "--http.ca-path=/etc/ssl/certs", "--http.connect-timeout=300",
        "--http.low-speed-limit=1", "--http.low-speed-time=300"]
    OUTPUT = [
        "--tal=ta.tal", "--local-repository=cache", "--output.roa=out.csv", "--validation-log.enabled=true",
        "--validation-log.level=info"]
    # Online it doesn't have to look elsewhere than in RRDP.
    USUAL_ONLINE = re.compile(USUAL.pattern.rpartition("|(?P<offline>")[0])

    def prepare_offline(self, exported, folder):
        write_tree(os.path.join(folder, "cache"), exported.objects)
        write(os.path.join(folder, "cache", HOST, "rrdp", "ta.cer"), exported.anchor)

    def run(self, folder, online):
        os.makedirs(os.path.join(folder, "cache"), exist_ok=True)
        way = self.ONLINE if online else ["--work-offline=true"]
        words = ["fort", "--mode=standalone", "--log.level=warning", *way, *self.OUTPUT]
        complaints = words_of_a_run(words, folder, self.USUAL_ONLINE if online else self.USUAL)
        return self.found(folder, complaints)

    @staticmethod
    def found(folder, complaints):
        try:
            with open(os.path.join(folder, "out.csv"), encoding="utf-8") as file:
                rows = [*csv.reader(file)][1:]
        except OSError as error:
            complaints.append(f"its output can't be read: {error}")
            rows = []
        return Found({payload(prefix, maximum, asn) for asn, prefix, maximum in rows}, complaints)


class FortServer:
    """FORT as a server, which keeps RRDP's session from one round to the next. It begins a round each minute."""

    name, agent = "FORT, serving", "follower"
    # What it says first and last in a round.
    BEGUN, ENDED = b" INF: Starting validation.", b" INF: - Real execution time"
    USUAL = re.compile(
        Fort.USUAL_ONLINE.pattern + r"|^$| INF: (Validation finished:|- (Valid (ROAs|Router Keys)|Serial|Real execution))"
        r"| WRN: First validation cycle successfully ended")
    # It warns where a notification that it has seen the session of names no delta, and takes the snapshot.
    USUAL_WITHOUT_DELTAS = re.compile(
        USUAL.pattern + r"|: There's no delta list to process\.$"
        r"|: There was an error processing RRDP deltas, using the snapshot instead\.$")
    WORDS = [
        "--mode=server", "--server.address=127.0.0.1", "--server.port=8323", "--server.interval.validation=60",
        f"--http.user-agent={agent}", "--log.level=info"]

    def __init__(self, exported, folder):
        """Begins its first round, over an edition that stands."""
        write(os.path.join(folder, "ta.tal"), exported.locator)
        os.makedirs(os.path.join(folder, "cache"))
        self.folder = folder
        with open(os.path.join(folder, "log"), "wb") as log:
            self.process = start(["fort", *self.WORDS, *Fort.ONLINE, *Fort.OUTPUT], folder, log)

    def rounds(self):
        """What it has said in each round. The last one may still go on."""
        with open(os.path.join(self.folder, "log"), "rb") as file:
            return file.read().split(self.BEGUN)[1:]

    def has_ended(self, number):
        rounds = self.rounds()
        return len(rounds) > number and self.ENDED in rounds[number]

    def look(self, number, exported):
        """What it finds in the round of that number, counted from 0, of an edition that stands."""
        until = time.time() + LONGEST
        while not self.has_ended(number) and time.time() < until and self.process.poll() is None:
            time.sleep(0.2)
        complaints = [] if self.has_ended(number) else [f"its round {number} hasn't ended well"]
        usual = self.USUAL if exported.deltas else self.USUAL_WITHOUT_DELTAS
        for said in self.rounds()[number : number + 1]:
            complaints += unusual_lines(said, usual)
        return Fort.found(self.folder, complaints)

    def close(self):
        self.process.kill()
        self.process.wait()


class OctoRpki:
    name, package, agent = "OctoRPKI", "octorpki", "Cloudflare-RRDP-OctoRPKI"
    USUAL = re.compile(
        r'level=info msg="(Validator started|Still exploring\. Revalidating now|Stable, terminating'
        rf"|Rsync sync {RSYNC.rstrip('/')}|Successfully downloaded root certificate for \S+ at \S+"
        r'|RRDP sync \S+|RRDP: [^"]*)"')

    def prepare_offline(self, exported, folder):
        write_tree(os.path.join(folder, "cache"), exported.objects)

    def run(self, folder, online):
        # By rsync it finds what stands in its folder, or, online, nothing.
        way = [] if online else ["-rrdp=false"]
        words = [
            "octorpki", "-mode", "oneoff", *way, "-cache", "cache", "-rrdp.file", "rrdp.json",
            "-rsync.bin", shutil.which("false" if online else "true"), "-tal.root", "ta.tal", "-tal.name", "ta",
            "-output.sign=false", "-output.roa", "out.json", "-loglevel", "info"]
        complaints = words_of_a_run(words, folder, self.USUAL)
        rows = read_json(os.path.join(folder, "out.json"), complaints).get("roas") or []
        return Found({payload(row["prefix"], row["maxLength"], row["asn"]) for row in rows}, complaints)


PARTIES = [RpkiClient(), Fort(), OctoRpki()]


def look_offline(party, exported, folder):
    """What it finds in a folder that has the edition, from nothing."""
    shutil.rmtree(folder, ignore_errors=True)
    write(os.path.join(folder, "ta.tal"), exported.locator)
    party.prepare_offline(exported, folder)
    return party.run(folder, online=False)


def look_online(party, exported, folder):
    """What it finds by RRDP, beside what it kept in that folder the last time."""
    write(os.path.join(folder, "ta.tal"), exported.locator)
    for old in ("out.csv", "out.json", os.path.join("out", "json")):
        if os.path.exists(os.path.join(folder, old)):
            os.remove(os.path.join(folder, old))
    return party.run(folder, online=True)


def version(package):
    """The version of a Debian package."""
    asked = subprocess.run(["dpkg-query", "-W", "-f", "${Version}", package], capture_output=True, text=True)
    return asked.stdout or "?"
