"""Replies as tables for people."""
import shlex
import time


def table(head, rows):
    """Columns as wide as their widest cell, without blanks at the ends of lines."""
    cells = [list(map(str, row)) for row in [head, *rows]]
    widths = [max(len(row[at]) for row in cells) for at in range(len(head))]
    return "".join("  ".join(cell.ljust(width) for cell, width in zip(row, widths)).rstrip() + "\n" for row in cells)


def moment_text(seconds):
    return time.strftime("%Y-%m-%d %H:%M:%S UTC", time.gmtime(seconds))


def authorities(reply):
    return table(["NAME", "STATE"], [[it["name"], "deleted" if it["deleted"] else "active"] for it in reply["authorities"]])


def resources_text(resources):
    """The three sets, those that are empty left out."""
    names = (("asn", "AS"), ("ipv4", "IPv4"), ("ipv6", "IPv6"))
    parts = [f"{name} {resources[key]}" if key != "asn" else resources[key] for key, name in names if resources[key]]
    return "; ".join(parts) or "none"


def shown(reply):
    head = [
        ["Authority:", reply["authority"]],
        ["Parent:", reply["parent"] or "none"],
        ["Keys:", reply["stage"]],
        ["Certified:", resources_text(reply["certified"])],
        ["Edition:", reply["serial"] or "none yet"],
    ]
    text = "".join(f"{name:11}{value}\n" for name, value in head)
    rows = [[it["name"], "suspended" if it["suspended"] else "active", resources_text(it["resources"])] for it in reply["children"]]
    return text + ("\n" + table(["CHILD", "STATE", "RESOURCES"], rows) if rows else "Children:  none\n")


def origins(reply):
    return table(["ORIGIN", "STATE"], [[it["origin"], it["state"]] for it in reply["origins"]])


def history(reply):
    return table(["COUNT", "COMMAND"], [[it["count"], words_of(it["line"])] for it in reply["commands"]])


def words_of(line):
    """The words of krill that send the line, the authority's name first."""
    words = line["command"].split()
    for field, value in sorted(line.items(), key=lambda it: it[0] != "ca"):
        if field == "command" or value in ("", [], 0):
            continue
        if field == "resources":
            words += [part for key in ("asn", "ipv4", "ipv6") if value[key] for part in (f"--{key}", value[key])]
        elif isinstance(value, list):
            words += [part for each in value for part in (f"--{field}", each)]
        else:
            words += [f"--{field}", str(value)]
    return " ".join(map(shlex.quote, words))


def counted(number, what):
    return f"{number} {what}" if number == 1 else f"{number} {what}s"


def published(reply):
    return (f"Edition {reply['serial']} of {moment_text(reply['moment'])}: "
            f"{counted(reply['objects'], 'object')}, {counted(reply['origins'], 'origin')}.\n")


def audited(found):
    if not found["serial"]:
        return "Nothing was published yet.\n"
    counts = ((found["objects"], "object"), (found["points"], "publication point"), (found["origins"], "origin"))
    return f"Edition {found['serial']} of {moment_text(found['moment'])} is sound: {', '.join(counted(*it) for it in counts)}.\n"


def points(found):
    return table(["NUMBER", "ENDS", "MANIFEST"], [[it.number, moment_text(it.ends), it.uri] for it in found])


def accepted(reply):
    return f"Accepted: command {reply['count']} of {reply['authority']}.\n"


def serial(reply):
    return f"{reply['serial']}\n"


PRINTED = {
    "accepted": accepted,
    "published": published,
    "list": authorities,
    "show": shown,
    "roas list": origins,
    "history commands": history,
    "serial": serial,
}


def printed(reply):
    return PRINTED[reply["reply"]](reply)
