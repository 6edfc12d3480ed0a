"""What each command sends, and how its reply is shown."""
import json
import os
import sys
import time

from . import completing, explain, health, origins, points, tables
from .store import DONE, REFUSED, REHEARSAL, StoreFault


class Unusable(Exception):
    """Words or a file that can't be used: nothing was sent."""


def tell(reply, form):
    """Prints the reply, refusals on standard error, and gives krill's status."""
    if "refused" not in reply:
        print(json.dumps(reply) + "\n" if form == "json" else tables.printed(reply), end="")
        return DONE
    if form == "json":
        print(json.dumps(reply))
    else:
        print(f"krill: {explain.refusal(reply)}", file=sys.stderr)
    return DONE if explain.is_good(reply) else REFUSED


def send(store, asked, command, **fields):
    replies, _ = store.ask([{"command": command, **fields}])
    return tell(replies[0], asked.format)


def read(store, command, **fields):
    """A read's reply, for commands that work with it."""
    replies, _ = store.ask([{"command": command, **fields}])
    return replies[0]


def init(store, _asked):
    store.run([])
    return DONE


def add(store, asked):
    return send(store, asked, "add", ca=asked.ca, signer=asked.signer)


def delete(store, asked):
    return send(store, asked, "delete", ca=asked.ca)


def list_all(store, asked):
    return send(store, asked, "list")


def show(store, asked):
    return send(store, asked, "show", ca=asked.ca)


def history(store, asked):
    return send(store, asked, "history commands", ca=asked.ca)


def parents_add(store, asked):
    return send(store, asked, "parents add", ca=asked.ca, parent=asked.parent)


def granted(asked):
    return {"asn": asked.asn, "ipv4": asked.ipv4, "ipv6": asked.ipv6}


def children_add(store, asked):
    return send(store, asked, "children add", ca=asked.ca, child=asked.child, resources=granted(asked))


def children_update(store, asked):
    return send(store, asked, "children update", ca=asked.ca, child=asked.child, resources=granted(asked))


def children_remove(store, asked):
    return send(store, asked, "children remove", ca=asked.ca, child=asked.child)


def children_suspend(store, asked):
    return send(store, asked, "children suspend", ca=asked.ca, child=asked.child)


def children_unsuspend(store, asked):
    return send(store, asked, "children unsuspend", ca=asked.ca, child=asked.child)


def roas_list(store, asked):
    return send(store, asked, "roas list", ca=asked.ca)


def roas_update(store, asked):
    if not asked.add and not asked.remove:
        raise Unusable("neither --add nor --remove is given")
    return send(store, asked, "roas update", ca=asked.ca, add=asked.add, remove=asked.remove)


def keyroll_init(store, asked):
    return send(store, asked, "keyroll init", ca=asked.ca)


def keyroll_activate(store, asked):
    return send(store, asked, "keyroll activate", ca=asked.ca)


def configured(store, name):
    """The origins that the authority has, or the refusal of reading them."""
    reply = read(store, "roas list", ca=name)
    return reply, [origins.read_text(it["origin"]) for it in reply.get("origins", [])]


def roas_export(store, asked):
    reply, found = configured(store, asked.ca)
    if "refused" in reply:
        return tell(reply, asked.format)
    print(origins.write(sorted(found, key=lambda it: it.order), asked.form), end="")
    return DONE


def wanted(name):
    """The origins of the file."""
    try:
        if name == "-":
            return origins.read_file(sys.stdin.read(), "standard input")
        with open(name, encoding="utf-8", newline="") as file:
            return origins.read_file(file.read(), name)
    except OSError as fault:
        raise Unusable(f"{name}: {fault.strerror}") from None
    except (origins.OriginFault, UnicodeDecodeError) as fault:
        raise Unusable(str(fault)) from None


def roas_import(store, asked):
    given = wanted(asked.file)
    reply, found = configured(store, asked.ca)
    if "refused" in reply:
        return tell(reply, asked.format)
    added = [it.text for it in given if it not in set(found)]
    removed = [it.text for it in sorted(set(found) - set(given), key=lambda it: it.order)] if asked.replace else []
    # what changes is shown on standard error, so that standard output has the reply alone
    print("".join([f"- {it}\n" for it in removed] + [f"+ {it}\n" for it in added])
          + f"{len(added)} to add, {len(removed)} to remove, {len(found) - len(removed)} stay.", file=sys.stderr)
    if asked.dry_run or not (added or removed):
        return DONE
    if not asked.yes and not agreed(asked.file):
        raise Unusable("not confirmed: nothing was sent; --yes sends without asking")
    return send(store, asked, "roas update", ca=asked.ca, add=added, remove=removed)


def agreed(name):
    """Whether somebody at a terminal agrees."""
    if name == "-" or not sys.stdin.isatty():
        return False
    return input("Send it? [y/N] ").strip().lower() in ("y", "yes")


def publish(store, asked):
    replies, said = store.ask([{"command": "publish"}])
    for line in said:
        if REHEARSAL in line:
            print(line, file=sys.stderr)
    return tell(replies[0], asked.format)


def audit(store, asked):
    found = store.audit()
    print(json.dumps(found) + "\n" if asked.format == "json" else tables.audited(found), end="")
    return DONE


def serial(store, asked):
    return send(store, asked, "serial")


def snapshot_of(store):
    """The authorities, each with its origins by state, and the last edition's serial."""
    listed = [it for it in read(store, "list")["authorities"] if not it["deleted"]]
    lines = [{"command": "serial"}] + [{"command": "roas list", "ca": it["name"]} for it in listed]
    replies, _ = store.ask(lines)
    return replies[0]["serial"], {it["authority"]: it["origins"] for it in replies[1:] if "origins" in it}


def watch(store, asked):
    """Prints a table whenever it differs from the last one."""
    last, looks = None, 0
    while asked.looks is None or looks < asked.looks:
        if looks:
            time.sleep(max(asked.interval, 0))
        looks += 1
        now = snapshot_of(store)
        if now != last:
            print(watched(now, asked.format), end="", flush=True)
            last = now
    return DONE


def watched(now, form):
    edition, authorities = now
    rows = [{"authority": name, **health.by_state(listed)} for name, listed in authorities.items()]
    if form == "json":
        return json.dumps({"authorities": rows, "serial": edition}) + "\n"
    head = f"{time.strftime('%H:%M:%S')}  edition {edition or 'none yet'}\n"
    states = list(health.STATES)
    return head + tables.table(["AUTHORITY", *map(str.upper, states)], [[it["authority"], *(it[state] for state in states)] for it in rows]) + "\n"


def status(store, asked):
    store.require()
    found = health.look(store.data)
    store.wait = 0    # who watches isn't held up
    try:
        _, authorities = snapshot_of(store)
        found.add_reads(authorities)
    except StoreFault as fault:  # the files tell what they have, whether or not somebody else has the store
        print(f"krill: no reads: {fault}", file=sys.stderr)
    if asked.prometheus:
        print(found.gauges(), end="")
    elif asked.format == "json":
        print(json.dumps(found.as_json()))
    else:
        print(found.text(), end="")
    return DONE


def list_points(store, asked):
    """Prints the exported publication points, those that end first at first. It needs the files alone."""
    store.require()
    found = sorted(points.exported(os.path.join(store.data, "repo")).points, key=lambda it: (it.ends, it.uri))
    if asked.not_above is not None:
        seen = {it.uri: it.number for it in points.exported(asked.not_above).points}
        if not seen:
            raise Unusable(f"{asked.not_above}: no edition stands there")
        found = [it for it in found if it.number <= seen.get(it.uri, 0)]
    if asked.format == "json":
        print(json.dumps([vars(it) for it in found]))
    elif found:
        print(tables.points(found), end="")
    return DONE


def completion(_store, _asked):
    from .words import parser
    print(completing.bash(parser()), end="")
    return DONE
