"""The samples: each a list of editions, and each edition a list of lines and the origins that it has to publish."""
import json, os
from dataclasses import dataclass

TOP = os.path.dirname(os.path.dirname(os.path.dirname(os.path.abspath(__file__))))
PUBLISH = json.dumps({"command": "publish"})


@dataclass
class Edition:
    """Lines whose last one publishes, the origins that are published then, and how many lines are refused."""

    lines: list
    origins: list
    refused: int = 0
    # How many seconds krillc's clock is late. Nobody looks at such an edition, whose time may be over.
    late: int = 0
    # Whether krillc and its signers are ended and started again before it.
    is_behind_restart: bool = False


@dataclass
class Sample:
    name: str
    editions: list
    signers: int = 1
    # Whether a bit of a ROA's signature is changed before anybody looks, so that each has to refuse something.
    is_spoiled: bool = False
    # Whether a relying party that runs all the time follows the editions too, a minute for each.
    is_followed: bool = False

    @property
    def is_late(self):
        """Whether krillc's clock is late at some edition."""
        return any(edition.late for edition in self.editions)


def update(ca, add=(), remove=()):
    return json.dumps({"command": "roas update", "ca": ca, "add": [*add], "remove": [*remove]})


def on_child(word, parent, child, **resources):
    line = {"command": f"children {word}", "ca": parent, "child": child}
    return json.dumps({**line, "resources": resources} if word in ("add", "update") else line)


def authority(parent, child, signer=0, **resources):
    """The lines that put an authority below another one."""
    return [
        json.dumps({"command": "add", "ca": child, "signer": signer}),
        on_child("add", parent, child, **resources),
        json.dumps({"command": "parents add", "ca": child, "parent": parent}),
    ]


def edition(lines, origins, late=0):
    return Edition([*lines, PUBLISH], [*origins], late=late)


def example(name, origins, refused=0):
    """A session of examples/ up to its first publication, which is added where it has none."""
    with open(os.path.join(TOP, "examples", f"{name}.jsonl"), encoding="utf-8") as file:
        lines = file.read().splitlines()
    at = next((at for at, line in enumerate(lines) if json.loads(line) == json.loads(PUBLISH)), len(lines))
    return Sample(f"examples/{name}.jsonl", [Edition([*lines[:at], PUBLISH], origins, refused)])


EXAMPLES = [
    example("first-session", ["10.0.0.0/16-24 => 64496", "10.1.0.0/16 => 5", "192.0.2.0/24 => 64500"], refused=3),
    example("tree-session", ["192.0.2.0/24 => 64496", "2001:db8::/32-48 => 64496"]),
    example("publish-session", ["192.0.2.0/24 => 64496", "2001:db8::/32-48 => 64496"]),
]


def spoiled_roa():
    """Shows that what is refused is seen here."""
    origins = ["10.0.0.0/16-24 => 64496", "192.0.2.0/24 => 64500"]
    return Sample("a ROA with one bit changed, which each has to refuse", [edition([update("ta", origins)], origins)],
                  is_spoiled=True)


def no_origins():
    return Sample("no origin at all", [edition([], [])])


def families_and_maxima():
    """The ends of both families, each kind of maximum, and the least and the greatest AS number."""
    origins = [
        "0.0.0.0/0 => 0", "0.0.0.0/0-32 => 4294967295", "10.0.0.0/8-24 => 64496", "10.0.0.0/8-32 => 64496",
        "10.0.0.0/8 => 64496", "10.0.0.0/8 => 64497", "192.0.2.1/32 => 1", "255.255.255.255/32 => 65536",
        "128.0.0.0/1-2 => 3", "::/0 => 0", "::/0-128 => 4294967295", "2001:db8::/32-48 => 64496",
        "2001:db8::/32 => 64496", "2001:db8::/127-128 => 2", "2001:db8::1/128 => 1", "8000::/1 => 3",
        "ffff:ffff:ffff:ffff:ffff:ffff:ffff:ffff/128 => 4294967295",
    ]
    return Sample("both families and maximum lengths", [edition([update("ta", origins)], origins)])


def odd_resources():
    """Resources that are ranges and no prefixes, of one family alone, and AS numbers alone."""
    lines = [
        *authority("ta", "ranges", ipv4="10.0.0.1-10.0.3.254,192.0.2.0/24", ipv6="2001:db8::1-2001:db8::ffff"),
        *authority("ta", "six", ipv6="2001:db8:1::/48"),
        *authority("ta", "numbers", asn="AS1-AS10,AS64496,AS4294967295"),
        update("ranges", ["10.0.2.0/23-24 => 1", "10.0.1.0/24 => 1", "2001:db8::8/125 => 1"]),
        update("six", ["2001:db8:1::/48-64 => 6"]), update("numbers", ["10.0.0.0/24 => 1"]),
    ]
    return Sample("ranges, one family, AS numbers alone", [
        edition(lines, ["10.0.1.0/24 => 1", "2001:db8::8/125 => 1", "2001:db8:1::/48-64 => 6"]),
    ])


def long_names():
    """A name of 64 bytes, and an origin whose file name is long."""
    name = "Long-name_" + "x" * 54
    origins = ["2001:db8:1111:2222:3333:4444:5555:6660/124-128 => 4294967295"]
    return Sample("long names", [
        edition([*authority("ta", name, ipv6="2001:db8::/32"), update(name, origins)], origins),
    ])


def two_signers():
    lines = [*authority("ta", "own", signer=1, ipv4="10.0.0.0/8"), update("own", ["10.0.0.0/8 => 7"])]
    return Sample("two signers", [edition(lines, ["10.0.0.0/8 => 7"])], signers=2)


def same_origin_twice():
    """One origin that two authorities publish is one payload."""
    lines = []
    for name in ("a", "b"):
        lines += [*authority("ta", name, ipv4="10.0.0.0/8"), update(name, ["10.0.0.0/8-9 => 7"])]
    return Sample("one origin of two authorities", [edition(lines, ["10.0.0.0/8-9 => 7"])])


def chain(length):
    """Authorities below each other, each with an origin of its own inside of what it is granted."""
    lines, origins = [], []
    for depth in range(1, length + 1):
        parent = "ta" if depth == 1 else f"a{depth - 1}"
        origin = f"10.0.{depth}.0/24 => {depth}"
        lines += [*authority(parent, f"a{depth}", ipv4="10.0.0.0/8", asn="AS0-AS100"), update(f"a{depth}", [origin])]
        origins.append(origin)
    return Sample(f"a chain of {length} authorities", [edition(lines, origins)])


def many_children(count):
    lines, origins = [], []
    for number in range(count):
        origin = f"10.{number}.0.0/16-20 => {64496 + number}"
        lines += [*authority("ta", f"child-{number}", ipv4=f"10.{number}.0.0/16"), update(f"child-{number}", [origin])]
        origins.append(origin)
    return Sample(f"{count} children", [edition(lines, origins)])


def shrinking_grants():
    """A grant above shrinks to half, to nothing, and comes back: what lies below goes and comes with it."""
    whole, inner = "10.0.0.0/16 => 65000", "10.0.5.0/24 => 65000"
    lines = [
        *authority("ta", "a", ipv4="10.0.0.0/8"), *authority("a", "b", ipv4="10.0.0.0/8"),
        *authority("b", "c", ipv4="10.0.0.0/16"), update("c", [whole, inner]),
    ]
    return Sample("shrinking grants", [
        edition(lines, [whole, inner]),
        edition([on_child("update", "ta", "a", ipv4="10.0.0.0/17")], [inner]),
        edition([on_child("update", "b", "c")], []),
        edition([on_child("update", "b", "c", ipv4="10.0.0.0/16")], [inner]),
        edition([on_child("update", "ta", "a", ipv4="10.0.0.0/8")], [whole, inner]),
    ])


def deletion():
    """Suspended and back, removed from the list of children, deleted for good: each takes what lies below along."""
    lines = [*authority("ta", "isp", ipv4="10.0.0.0/8"), *authority("isp", "shop", ipv4="10.1.0.0/16")]
    own, below, other = "10.0.0.0/9 => 1", "10.1.0.0/16 => 2", "192.0.2.0/24 => 3"
    return Sample("suspension, removal, deletion", [
        edition([*lines, update("isp", [own]), update("shop", [below]), update("ta", [other])], [own, below, other]),
        edition([on_child("suspend", "ta", "isp")], [other]),
        edition([on_child("unsuspend", "ta", "isp")], [own, below, other]),
        edition([on_child("remove", "isp", "shop")], [own, other]),
        edition([on_child("add", "isp", "shop", ipv4="10.1.0.0/16")], [own, below, other]),
        edition([json.dumps({"command": "delete", "ca": "isp"})], [other]),
    ])


def rolled_keys():
    """The keys of an authority and of its child are rolled at once. Each stage is looked at today: the first two editions,
    of which the second makes the new keys, are a day and some old."""
    own, below = "10.0.0.0/9 => 1", "10.1.0.0/16 => 2"
    lines = [
        *authority("ta", "isp", ipv4="10.0.0.0/8"), *authority("isp", "shop", ipv4="10.1.0.0/16"),
        update("isp", [own]), update("shop", [below]),
    ]
    both = {word: [json.dumps({"command": f"keyroll {word}", "ca": ca}) for ca in ("isp", "shop")] for word in ("init", "activate")}
    return Sample("a parent's and a child's key rolled: staged, activated, retired", [
        edition(lines, [own, below], late=90_000), edition(both["init"], [own, below], late=90_000),
        edition([update("isp")], [own, below]), edition(both["activate"], [own, below]), edition([], [own, below]),
    ])


def many_origins(count):
    origins = [f"10.{number // 256}.{number % 256}.0/24 => {number}" for number in range(count)]
    lines = [*authority("ta", "isp", ipv4="10.0.0.0/8"), update("isp", origins)]
    return Sample(f"{count:,} origins", [edition(lines, origins)])


def one_after_another(count):
    """Editions that each add one origin to twenty, one of them without any change below the other authority. krillc is
    started again before the third and before the last one."""
    stays = [f"192.0.2.{number * 8}/29 => {number}" for number in range(20)]
    lines = [*authority("ta", "stays", ipv4="192.0.2.0/24"), *authority("ta", "grows", ipv4="10.0.0.0/8")]
    editions, grown = [edition([*lines, update("stays", stays)], stays)], []
    for number in range(1, count):
        grown.append(f"10.{number}.0.0/16-24 => {number}")
        editions.append(edition([update("grows", grown[-1:])], [*stays, *grown]))
    for number in (2, count - 1):
        editions[number].is_behind_restart = True
    return Sample(f"{count} editions one after another, over restarts", editions, is_followed=True)


SAMPLES = [
    spoiled_roa(), *EXAMPLES, no_origins(), families_and_maxima(), odd_resources(), long_names(), two_signers(),
    same_origin_twice(), chain(8), many_children(40), shrinking_grants(), deletion(), rolled_keys(),
    one_after_another(20), many_origins(1024),
]
