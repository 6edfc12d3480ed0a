"""What the editions of a tree come to, by the rules of docs/edition.md and docs/tree.md alone: how many objects stand, are put
and are withdrawn, how many signatures that takes, and how many entries new CRLs have. Keys are made up, and no byte is made."""
import ipaddress
import json

CERTIFICATE_LIFE, POINT_LIFE = 31_449_600, 86_400
CERTIFICATE_MARGIN, POINT_MARGIN, STAGING = 2_419_200, 28_800, 86_400
FIRST_MOMENT, LAST_MOMENT = 946_684_800, 253_370_764_799
EVERYTHING = (((0, 2**32 - 1),), ((0, 2**32 - 1),), ((0, 2**128 - 1),))
NOTHING = ((), (), ())


# ---- sets of numbers, as ascending ranges

def joined(ranges):
    out = []
    for first, last in sorted(ranges):
        if out and first <= out[-1][1] + 1:
            out[-1] = (out[-1][0], max(last, out[-1][1]))
        else:
            out.append((first, last))
    return tuple(out)


def meet(a, b):
    out, i, j = [], 0, 0
    while i < len(a) and j < len(b):
        first, last = max(a[i][0], b[j][0]), min(a[i][1], b[j][1])
        if first <= last:
            out.append((first, last))
        if a[i][1] < b[j][1]:
            i += 1
        else:
            j += 1
    return tuple(out)


def parts(text):
    return [part for part in text.replace(" ", "").split(",") if part]


def addresses(text):
    ranges = []
    for part in parts(text):
        if "-" in part:
            ranges.append(tuple(int(ipaddress.ip_address(end)) for end in part.split("-")))
        else:
            network = ipaddress.ip_network(part)
            ranges.append((int(network.network_address), int(network.broadcast_address)))
    return joined(ranges)


def numbers(text):
    ranges = []
    for part in parts(text.upper().replace("AS", "")):
        ends = part.split("-")
        ranges.append((int(ends[0]), int(ends[-1])))
    return joined(ranges)


def resources(words):
    return numbers(words.get("asn", "")), addresses(words.get("ipv4", "")), addresses(words.get("ipv6", ""))


def origin(text):
    """Its family, first and last address, length, maximum and AS number."""
    prefix, asn = text.replace(" ", "").split("=>")
    address, length = prefix.split("/")
    length, _, most = length.partition("-")
    network = ipaddress.ip_network(f"{address}/{length}")
    return (network.version, int(network.network_address), int(network.broadcast_address), int(length),
            int(most or length), int(asn.upper().replace("AS", "")))


# ---- authorities

class Authority:
    def __init__(self, name):
        self.name, self.parent, self.children, self.origins = name, None, {}, set()
        self.begun = self.activated = 0
        self.deleted = False
        # live keys: role, key, since and done
        self.keys = []

    def of_role(self, role):
        return next((key for key in self.keys if key[0] == role), None)

    def step(self, holds, moment):
        """The keys after an edition, where a key that is made is none yet."""
        if not holds:
            return []
        new, current, old = map(self.of_role, ("new", "current", "old"))
        if current is None:
            return [("current", None, 0, self.begun)]
        done = current[3]
        if new is not None:
            if self.activated > done and moment >= current[2] + STAGING:
                return [("current", new[1], 0, done + 1), ("old", current[1], 0, done + 1)]
            return [new, current]
        if old is not None:
            return [("current", current[1], 0, done)]
        if self.begun > done:
            return [("new", None, moment, done), ("current", current[1], moment, done)]
        return [current]


# ---- the tree and its editions

class Tree:
    def __init__(self):
        self.by = {"ta": Authority("ta")}
        self.serial = self.moment = self.made = self.signatures = self.entries = 0
        self.behind_the_cut = False
        # what stands by its URI: issuer, content, end, and the URI of its issuer's certificate
        self.objects = {}
        # of each live key its point: end, other files, and the URI of the key's certificate
        self.points = {}
        # of each live key the ends of what was superseded, and when its last CRL was made
        self.ended, self.last_crl = {}, {}

    def take(self, line):
        """Takes in an accepted command, as its line."""
        words = json.loads(line)
        name, self.behind_the_cut = words["ca"], True
        if words["command"] == "add":
            self.by[name] = Authority(name)
            return
        one, child = self.by[name], words.get("child")
        match words["command"]:
            case "delete":
                one.deleted = True
            case "parents add":
                one.parent = words["parent"]
            case "children add":
                one.children[child] = [resources(words["resources"]), False]
            case "children update":
                one.children[child][0] = resources(words["resources"])
            case "children remove":
                del one.children[child]
            case "children suspend" | "children unsuspend":
                one.children[child][1] = words["command"] == "children suspend"
            case "roas update":
                one.origins -= set(map(origin, words.get("remove", [])))
                one.origins |= set(map(origin, words.get("add", [])))
            case "keyroll init":
                one.begun += 1
            case "keyroll activate":
                one.activated += 1
            case other:
                raise SystemExit(f"no such command: {other}")

    def certified(self, name, left=64):
        if name == "ta":
            return EVERYTHING
        one = self.by.get(name)
        above = self.by.get(one.parent) if one and left else None
        if above is None or one.deleted or above.deleted or above.children.get(name, (None, True))[1]:
            return NOTHING
        return tuple(map(meet, self.certified(one.parent, left - 1), above.children[name][0]))

    def owed(self, held):
        return [(name, each) for name, one in self.by.items() for each in one.origins
                if any(first <= each[1] and each[2] <= last for first, last in held[name][1 if each[0] == 4 else 2])]

    def is_due(self, moment):
        margin = lambda content: POINT_MARGIN if content == "point" else CERTIFICATE_MARGIN
        return any(end - moment <= margin(content) for _, content, end, _ in self.objects.values())

    def publish(self, clock):
        """What is told of the next edition, or why there is none."""
        moment = max(clock, self.moment + 1)
        if clock < FIRST_MOMENT or moment > LAST_MOMENT:
            return f"25 at {clock}: ClockRange {clock}"
        held = {name: self.certified(name) for name in self.by}
        steps = {name: one.step(any(held[name]), moment) for name, one in self.by.items()}
        turns = any(keys != self.by[name].keys for name, keys in steps.items())
        if not (self.behind_the_cut or self.serial == 0 or turns or self.is_due(moment)):
            return f"24 at {clock}: Nothing {self.serial}"
        for name, keys in steps.items():
            self.by[name].keys = [(role, self.key(name) if key is None else key, *rest) for role, key, *rest in keys]
        return self.edition(moment, held)

    def key(self, name):
        """A new key of the authority."""
        self.made += 1
        return f"key{self.made}"

    def live(self):
        return [(name, key[1]) for name, one in self.by.items() for key in one.keys]

    def wanted(self, held, homes, owed):
        """Certificates and ROAs: of each place the issuer, the content and the place of the issuer's certificate."""
        current = {name: key and key[1] for name, key in ((n, one.of_role("current")) for n, one in self.by.items())}
        wanted = {}
        for name, key in self.live():
            issuer = key if name == "ta" else current[self.by[name].parent]
            wanted[homes[key]] = (issuer, ("certificate", key, held[name]), None if name == "ta" else homes[issuer])
        for name, each in owed:
            wanted[f"{name}/0/{each}.roa"] = (current[name], ("roa", each), homes[current[name]])
        return wanted

    def edition(self, moment, held):
        homes = {key: "ta.cer" if name == "ta" else f"{self.by[name].parent}/0/{key}.cer" for name, key in self.live()}
        owed = self.owed(held)
        put, files, objects, points = 0, {}, {}, {}
        self.signatures = 0
        for uri, (issuer, content, above) in self.wanted(held, homes, owed).items():
            stood = self.objects.get(uri)
            if stood and (stood[0], stood[1], stood[3]) == (issuer, content, above) and stood[2] > moment + CERTIFICATE_MARGIN:
                objects[uri] = stood
            else:
                objects[uri] = (issuer, content, moment + CERTIFICATE_LIFE, above)
                put += 1
                self.signatures += 1 if content[0] == "certificate" else 2
            if uri != "ta.cer":
                files.setdefault(issuer, {})[uri] = id(objects[uri])
        for name, key in self.live():
            places = [f"{name}/0/{key}.crl", f"{name}/0/{key}.mft"]
            point = self.points.get(key)
            listed = files.get(key, {})
            if name != "ta" and point and point[1:] == (listed, homes[key]) and point[0] > moment + POINT_MARGIN:
                points[key] = point
                objects |= {uri: self.objects[uri] for uri in places}
            else:
                points[key] = (moment + POINT_LIFE, listed, homes[key])
                objects |= {uri: (key, "point", moment + POINT_LIFE, None) for uri in places}
                put += 2
                self.signatures += 3
        gone = len(set(self.objects) - set(objects))
        self.count_entries(moment, objects, points)
        self.objects, self.points, self.moment, self.behind_the_cut = objects, points, moment, False
        self.serial += 1
        return (f"serial {self.serial} at {moment}: {len(objects)} objects, {len(owed)} origins, {put} put, "
                f"{gone} withdrawn")

    def count_entries(self, moment, objects, points):
        """How many entries the new CRLs have: what doesn't stand any more and hadn't ended by the last CRL."""
        for uri, stood in self.objects.items():
            if uri != "ta.cer" and not uri.endswith(".crl") and objects.get(uri) is not stood:
                self.ended.setdefault(stood[0], []).append(stood[2])
        self.entries = 0
        for key, point in points.items():
            if self.points.get(key) is not point:
                self.ended[key] = [end for end in self.ended.get(key, []) if end >= self.last_crl.get(key, 0)]
                self.last_crl[key] = moment
                self.entries += len(self.ended[key])
        self.ended = {key: ends for key, ends in self.ended.items() if key in points}
        self.last_crl = {key: made for key, made in self.last_crl.items() if key in points}
