"""What lists of accepted commands come to, by docs/protocol.md and docs/tree.md alone: the verdict on each command, and what
the reads and the editions over such lists tell. Nothing of it is the program's."""
import functools, ipaddress, json, os, sys

sys.path.append(os.path.dirname(os.path.dirname(os.path.abspath(__file__))))
import editions as rules

ANCHOR, MOST_NAMES, MOST_CHILDREN, MOST_ORIGINS, SIGNERS = "ta", 64, 63, 1024, 1
NO_RESOURCES = {"asn": "", "ipv4": "", "ipv6": ""}
# Between two configurations that are kept stand so many commands.
STRIDE = 8
origin_of = functools.cache(rules.origin)


def rank(origin):
    """Origins' order."""
    version, first, _, length, most, asn = origin
    return version == 6, first, length, most, asn


def origin_text(origin):
    version, first, _, length, most, asn = origin
    address = (ipaddress.IPv4Address if version == 4 else ipaddress.IPv6Address)(first).compressed
    return f"{address}/{length}" + (f"-{most}" if most != length else "") + f" => {asn}"


@functools.cache
def spelled(text):
    """The one spelling of an origin."""
    return origin_text(origin_of(text))


def blocks_text(ranges, kind, width):
    """A set of addresses: prefixes where a range is one."""
    texts = []
    for first, last in ranges:
        size = last - first + 1
        if size & (size - 1) == 0 and first % size == 0:
            texts.append(f"{kind(first).compressed}/{width - size.bit_length() + 1}")
        else:
            texts.append(f"{kind(first).compressed}-{kind(last).compressed}")
    return ", ".join(texts)


def resources_text(held):
    """Three sets as they are printed."""
    numbers = (f"AS{first}" if first == last else f"AS{first}-AS{last}" for first, last in held[0])
    return {"asn": ", ".join(numbers), "ipv4": blocks_text(held[1], ipaddress.IPv4Address, 32),
            "ipv6": blocks_text(held[2], ipaddress.IPv6Address, 128)}


def full(line):
    """A command's line as a history has it: with all fields, defaults too, and each value in its one spelling."""
    whole = dict(line)
    if line["command"] == "add":
        whole.setdefault("signer", 0)
    if line["command"] == "roas update":
        for field in ("add", "remove"):
            whole[field] = [spelled(text) for text in line.get(field, [])]
    if "resources" in line:
        whole["resources"] = resources_text(rules.resources(line["resources"]))
    return whole


def desk_of(line):
    """The name of the authority whose desk takes the command."""
    return ANCHOR if line["command"] == "add" else line["ca"]


class Config:
    """An authority's configuration, command by command."""

    def __init__(self, name):
        self.name, self.deleted, self.parent, self.children, self.origins = name, False, None, {}, set()
        self.begun = self.activated = 0
        self.names = [ANCHOR] if name == ANCHOR else None

    def copy(self):
        other = Config(self.name)
        other.__dict__.update(self.__dict__)
        other.children = {child: list(row) for child, row in self.children.items()}
        other.origins = set(self.origins)
        other.names = self.names and list(self.names)
        return other

    def verdict(self, line):
        """The first refusal that holds, as code, name and detail, or None."""
        if self.deleted:
            return 1, "Deleted", ""
        match line["command"]:
            case "add":
                return self.verdict_on_name(line)
            case "delete" | "parents add" | "keyroll init" | "keyroll activate":
                return self.verdict_below_the_anchor(line["command"])
            case "roas update":
                return self.verdict_on_origins(*(list(map(origin_of, line.get(it, []))) for it in ("add", "remove")))
            case command:
                return self.verdict_on_child(command, line["child"])

    def verdict_on_name(self, line):
        if line["ca"] in self.names:
            return 2, "NameTaken", ""
        if len(self.names) >= MOST_NAMES:
            return 3, "TooManyAuthorities", ""
        return (4, "NoSuchSigner", "") if line.get("signer", 0) >= SIGNERS else None

    def verdict_below_the_anchor(self, command):
        if self.name == ANCHOR:
            return 19, "NotForAnchor", ""
        if command == "parents add" and self.parent is not None:
            return 5, "HasParent", ""
        if command == "keyroll init":
            if self.parent is None:
                return 6, "NoParent", ""
            return (16, "RollGoing", "") if self.begun > self.activated else None
        if command == "keyroll activate" and self.begun == self.activated:
            return 17, "NoRoll", ""
        return None

    def verdict_on_child(self, command, child):
        if command == "children add":
            if child in self.children:
                return 7, "ChildThere", ""
            return (9, "TooManyChildren", "") if len(self.children) >= MOST_CHILDREN else None
        if child not in self.children:
            return 8, "NoSuchChild", ""
        if command == "children suspend" and self.children[child][1]:
            return 10, "Suspended", ""
        if command == "children unsuspend" and not self.children[child][1]:
            return 11, "NotSuspended", ""
        return None

    def verdict_on_origins(self, added, removed):
        for origin in added:
            if origin in self.origins and origin not in removed:
                return 12, "OriginThere", origin_text(origin)
        for origins in (added, removed):
            for place, origin in enumerate(origins):
                if origin in origins[:place]:
                    return 13, "OriginTwice", origin_text(origin)
        for origin in removed:
            if origin not in self.origins:
                return 14, "NoSuchOrigin", origin_text(origin)
        after = len(self.origins - set(removed) | set(added))
        return (15, "TooManyOrigins", str(after)) if after > MOST_ORIGINS else None

    def take(self, line):
        """Takes in an accepted command."""
        child = line.get("child")
        match line["command"]:
            case "add":
                self.names.append(line["ca"])
            case "delete":
                self.deleted = True
            case "parents add":
                self.parent = line["parent"]
            case "children add":
                self.children[child] = [full(line)["resources"], False]
            case "children update":
                self.children[child][0] = full(line)["resources"]
            case "children remove":
                del self.children[child]
            case "children suspend" | "children unsuspend":
                self.children[child][1] = line["command"] == "children suspend"
            case "roas update":
                self.origins -= set(map(origin_of, line.get("remove", [])))
                self.origins |= set(map(origin_of, line.get("add", [])))
            case "keyroll init":
                self.begun += 1
            case "keyroll activate":
                self.activated += 1

    def shown(self):
        """What `show` tells of it, but for what an edition says."""
        children = [{"name": name, "resources": row[0], "suspended": row[1]} for name, row in self.children.items()]
        return {"parent": self.parent, "children": children}


class Lists:
    """The accepted commands of each authority, in their order, and what each beginning of them comes to."""

    def __init__(self, commands):
        self.commands = {name: list(lines) for name, lines in commands.items()}
        self.kept = {name: [Config(name)] for name in commands}

    def length(self, name):
        return len(self.commands.get(name, ()))

    def at(self, name, place):
        """The configuration behind so many commands. It isn't to be changed."""
        kept = self.kept[name]
        while len(kept) <= place // STRIDE:
            config = kept[-1].copy()
            for line in self.commands[name][(len(kept) - 1) * STRIDE:len(kept) * STRIDE]:
                config.take(line)
            kept.append(config)
        config = kept[place // STRIDE]
        if place % STRIDE:
            config = config.copy()
            for line in self.commands[name][place // STRIDE * STRIDE:place]:
                config.take(line)
        return config

    def between(self, name, first, last):
        """Of each number of commands from the first to the last one the configuration, which the next step changes."""
        if first > last:
            return
        config = self.at(name, first).copy()
        yield first, config
        for place in range(first, last):
            config.take(self.commands[name][place])
            yield place + 1, config

    def place_of_name(self, name):
        """Behind how many of the anchor's commands the name is listed."""
        if name == ANCHOR:
            return 0
        return next((place + 1 for place, line in enumerate(self.commands[ANCHOR])
                     if line["command"] == "add" and line["ca"] == name), None)


class Edition:
    """An edition as the store's files have it: its serial and moment, how many commands of each authority it takes in, the
    stage of each that has keys, how many objects stand, and the paths of the ROAs among them below the base."""

    def __init__(self, serial, moment, cut, stages, objects, roas):
        self.serial, self.moment, self.cut, self.stages, self.objects, self.roas = serial, moment, cut, stages, objects, roas


class Told:
    """What an edition is to tell, over the lists up to its cut: the sets that each authority is certified for, and which
    origins are owed."""

    def __init__(self, tree):
        self.held = {name: tree.certified(name) for name in tree.by}
        self.owed = set(tree.owed(self.held))

    def certified(self, name):
        return resources_text(self.held[name]) if name in self.held else NO_RESOURCES

    def state(self, name, origin):
        if (name, origin) in self.owed:
            return "published"
        held = self.held.get(name, rules.NOTHING)[1 if origin[0] == 4 else 2]
        return "pending" if any(first <= origin[1] and origin[2] <= last for first, last in held) else "held"

    def paths(self):
        return {f"{name}/0/{origin_text(origin).encode().hex()}.roa" for name, origin in self.owed}


def told_by(lists, all_editions):
    """What each edition is to tell, by its serial. Before the first one nothing is certified."""
    tree, taken = rules.Tree(), {}
    told = {0: Told(rules.Tree())}
    told[0].held, told[0].owed = {}, set()
    for edition in all_editions:
        for name in sorted(edition.cut, key=lambda name: name != ANCHOR):
            # An authority whose name comes behind the cut isn't in this edition's tree.
            if name in tree.by:
                for line in lists.commands.get(name, [])[taken.get(name, 0):edition.cut[name]]:
                    tree.take(json.dumps(line))
                taken[name] = edition.cut[name]
        told[edition.serial] = Told(tree)
    return told
