"""A router that asks stayrtr what may be announced, and two neighbours that announce: BIRD, in namespaces of their own."""
import ipaddress
import json
import os
import re
import subprocess
import time
from dataclasses import dataclass

from place import run

ROUTER, TRUE, FALSE = "router", "honest", "false"
TRUE_AS, FALSE_AS = 64496, 64511
# What each neighbour announces. Its own number is the origin.
ANNOUNCED = {
    TRUE: ["192.0.2.0/24", "198.51.100.0/24", "2001:db8::/32", "10.1.0.0/16"],
    FALSE: ["192.0.2.0/24", "192.0.2.128/25", "198.51.100.0/24", "2001:db8:1::/48", "10.2.0.0/16"],
}
NUMBERS = {TRUE: TRUE_AS, FALSE: FALSE_AS}
# The ends of the links: name, the one's and the other's address.
NETS6 = {TRUE: "2001:db8:ffff:1", FALSE: "2001:db8:ffff:2"}
LINKS = {"cache": ("203.0.113.1", "203.0.113.2"), TRUE: ("203.0.113.9", "203.0.113.10"), FALSE: ("203.0.113.17", "203.0.113.18")}
RTR = 8282

SPEAKER = """router id {address};
protocol device {{}}
protocol static four {{ ipv4; {four} }}
protocol static six {{ ipv6; {six} }}
protocol bgp to_router {{
    local {address} as {number}; neighbor {other} as 65000;
    ipv4 {{ import none; export all; }};
    ipv6 {{ import none; export all; next hop address {net6}::2; }};
}}
"""
LISTENER = """router id 203.0.113.2;
protocol device {{}}
roa4 table four;
roa6 table six;
protocol rpki cache {{
    roa4 {{ table four; }};
    roa6 {{ table six; }};
    remote {cache} port {port};
    retry keep 2; refresh keep 5; expire keep 7200;
}}
filter checked {{
    if net.type = NET_IP4 && roa_check(four, net, bgp_path.last) = ROA_INVALID then reject;
    if net.type = NET_IP6 && roa_check(six, net, bgp_path.last) = ROA_INVALID then reject;
    accept;
}}
"""
NEIGHBOUR = """protocol bgp to_{name} {{
    local {address} as 65000; neighbor {other} as {number};
    ipv4 {{ import table on; import filter checked; export none; }};
    ipv6 {{ import table on; import filter checked; export none; }};
}}
"""


@dataclass
class Router:
    """The router, its neighbours, and stayrtr over a file that rpki-client writes."""

    folder: str
    processes: list

    def ask(self, *words):
        return run("ip", "netns", "exec", ROUTER, "birdc", "-s", os.path.join(self.folder, ROUTER), *words)

    def payloads(self):
        """What it was told by RTR, as (prefix, greatest length, AS number)."""
        found = re.findall(r"^(\S+/\d+)-(\d+) AS(\d+)", self.ask("show", "route", "table", "four") + self.ask("show", "route", "table", "six"), re.M)
        return {(str(ipaddress.ip_network(prefix)), int(most), int(number)) for prefix, most, number in found}

    def routes(self):
        """What it accepted, as (prefix, origin)."""
        taken, prefix = set(), ""
        for line in (self.ask("show", "route", "table", "master4") + self.ask("show", "route", "table", "master6")).splitlines():
            found = re.match(r"(\S+/\d+)?\s+unicast \[.*\[AS(\d+)", line)
            if found:
                prefix = found.group(1) or prefix
                taken.add((prefix, int(found.group(2))))
        return taken

    def waits_for(self, payloads):
        """Waits until it has these payloads and what they let through. What differs after a minute."""
        wanted, until = accepted(payloads), time.monotonic() + 60
        while (self.payloads(), self.routes()) != (payloads, wanted) and time.monotonic() < until:
            time.sleep(0.5)
        wrong = [f"the router was told {sorted(self.payloads() ^ payloads)} otherwise"] if self.payloads() != payloads else []
        return wrong + ([f"the router has {sorted(self.routes())}, wanted {sorted(wanted)}"] if self.routes() != wanted else [])


def is_invalid(prefix, origin, payloads):
    """RFC 6811: some payload covers the prefix, and none of them matches."""
    net = ipaddress.ip_network(prefix)
    covering = [(most, number) for at, most, number in payloads
                if ipaddress.ip_network(at).version == net.version and net.subnet_of(ipaddress.ip_network(at))]
    return bool(covering) and not any(net.prefixlen <= most and number == origin for most, number in covering)


def accepted(payloads):
    """The announcements that a router has to keep over these payloads."""
    return {(prefix, NUMBERS[name]) for name, prefixes in ANNOUNCED.items() for prefix in prefixes
            if not is_invalid(prefix, NUMBERS[name], payloads)}


def link(space, name, inner, outer, outer_space=None):
    """A cable between the router, or another space, and this one."""
    outside = ["ip", "-n", outer_space] if outer_space else ["ip"]
    run(*outside, "link", "add", f"to-{name}", "type", "veth", "peer", "name", "wire", "netns", space)
    run(*outside, "addr", "add", f"{outer}/30", "dev", f"to-{name}")
    run(*outside, "link", "set", f"to-{name}", "up")
    run("ip", "-n", space, "addr", "add", f"{inner}/30", "dev", "wire")
    run("ip", "-n", space, "link", "set", "wire", "up")


def start_bird(folder, name, text):
    path = os.path.join(folder, name)
    with open(f"{path}.conf", "w", encoding="ascii") as file:
        file.write(f'log "{path}.log" all;\n{text}')
    return subprocess.Popen(["ip", "netns", "exec", name, "bird", "-f", "-c", f"{path}.conf", "-s", path, "-P", f"{path}.pid"],
                            stdin=subprocess.DEVNULL, stdout=subprocess.DEVNULL, stderr=open(f"{path}.error", "wb"))


def start_stayrtr(folder, listed):
    log = open(os.path.join(folder, "stayrtr.log"), "ab")
    return subprocess.Popen(["stayrtr", "-bind", f"{LINKS['cache'][0]}:{RTR}", "-cache", listed, "-checktime=false", "-refresh", "2",
                             "-metrics.addr", ""], stdin=subprocess.DEVNULL, stdout=log, stderr=log)


def start(folder, listed):
    """Makes the namespaces, and starts all four. `listed` is rpki-client's list."""
    os.makedirs(folder)
    with open(listed, "w", encoding="ascii") as file:
        json.dump({"metadata": {"buildtime": "2026-01-01T00:00:00Z"}, "roas": []}, file)
    for name in (ROUTER, TRUE, FALSE):
        run("ip", "netns", "add", name)
        run("ip", "-n", name, "link", "set", "lo", "up")
    link(ROUTER, "router", LINKS["cache"][1], LINKS["cache"][0])
    config = LISTENER.format(cache=LINKS["cache"][0], port=RTR)
    processes = [start_stayrtr(folder, listed)]
    for name, number in NUMBERS.items():
        outer, inner = LINKS[name]
        link(name, name, inner, outer, ROUTER)
        run("ip", "-n", name, "-6", "addr", "add", f"{NETS6[name]}::2/64", "dev", "wire", "nodad")
        run("ip", "-n", ROUTER, "-6", "addr", "add", f"{NETS6[name]}::1/64", "dev", f"to-{name}", "nodad")
        config += NEIGHBOUR.format(name=name, address=outer, other=inner, number=number)
        routes = {it: [f"route {prefix} blackhole;" for prefix in ANNOUNCED[name] if (":" in prefix) == (it == "six")] for it in ("four", "six")}
        processes.append(start_bird(folder, name, SPEAKER.format(
            address=inner, other=outer, number=number, net6=NETS6[name], four=" ".join(routes["four"]), six=" ".join(routes["six"]))))
    return Router(folder, [*processes, start_bird(folder, ROUTER, config)])

