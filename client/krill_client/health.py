"""How a store and its last edition are, read from the files that krillc writes."""
import os
import time
from dataclasses import dataclass, field

from . import points, tables

STATES = ("published", "pending", "held")
DESK_LIMIT = 16 * 2**20
PRESS, PRESS_LIMIT = "press", 2**30
REFRESH_BEFORE = 8 * 3600     # an edition is due again when this much is left of one of its points


def limit_of(journal):
    """The most bytes that a journal may hold."""
    return PRESS_LIMIT if journal == PRESS else DESK_LIMIT


def by_state(listed):
    """How many of an authority's origins are in each state."""
    return {state: sum(it["state"] == state for it in listed) for state in STATES}


@dataclass
class Health:
    serial: int = 0
    session: str = ""
    begins: int | None = None      # the edition's moment, seconds since 1970
    ends: int | None = None        # when the first of its points ends: what fits stays, from edition to edition
    now: int = 0
    journals: dict = field(default_factory=dict)
    authorities: int | None = None
    origins: dict | None = None

    def add_reads(self, authorities):
        self.authorities = len(authorities)
        self.origins = by_state([it for listed in authorities.values() for it in listed])

    @property
    def age(self):
        return None if self.begins is None else self.now - self.begins

    @property
    def due(self):
        """Seconds until the next edition is due; below 0 where it's overdue."""
        return None if self.ends is None else self.ends - REFRESH_BEFORE - self.now

    def values(self):
        """Each gauge: name, help, and its values by labels."""
        yield "krill_serial", "Serial of the last edition, 0 before the first.", {"": self.serial}
        yield "krill_edition_age_seconds", "Seconds since the last edition's moment.", {"": self.age}
        yield "krill_edition_due_seconds", "Seconds until the next edition is due, below 0 where it is overdue.", {"": self.due}
        yield "krill_edition_left_seconds", "Seconds until the first publication point expires.", {"": None if self.ends is None else self.ends - self.now}
        yield "krill_authorities", "Authorities that aren't deleted.", {"": self.authorities}
        yield "krill_origins", "Configured origins, by state.", {f'state="{key}"': value for key, value in (self.origins or {}).items()}
        yield "krill_journal_bytes", "Bytes of each journal that holds commands or editions.", {f'journal="{key}"': value for key, value in self.journals.items()}
        yield "krill_journal_limit_bytes", "The most that each journal may hold.", {f'journal="{key}"': limit_of(key) for key in self.journals}

    def gauges(self):
        """The text format of Prometheus; what isn't known is left out."""
        text = ""
        for name, words, values in self.values():
            known = {labels: value for labels, value in values.items() if value is not None}
            if known:
                text += f"# HELP {name} {words}\n# TYPE {name} gauge\n"
                text += "".join(f"{name}{{{labels}}} {value}\n" if labels else f"{name} {value}\n" for labels, value in known.items())
        return text

    def as_json(self):
        return {"age": self.age, "authorities": self.authorities, "due": self.due, "journals": self.journals,
                "origins": self.origins, "serial": self.serial, "session": self.session}

    def text(self):
        fullest = max(self.journals, key=lambda it: self.journals[it] / limit_of(it), default=None)
        rows = [["Edition:", f"{self.serial}, of {tables.moment_text(self.begins)}" if self.begins is not None else "none yet"]]
        if self.due is not None:
            rows.append(["Next due:", f"in {self.due} s" if self.due > 0 else f"overdue by {-self.due} s: publish"])
            rows.append(["Expires:", tables.moment_text(self.ends)])
        if self.origins is not None:
            rows.append(["Authorities:", self.authorities])
            rows.append(["Origins:", ", ".join(f"{value} {key}" for key, value in self.origins.items())])
        if fullest:
            limit = limit_of(fullest)
            rows.append(["Fullest:", f"{fullest}, {self.journals[fullest] * 100 // limit} % of {limit >> 20:,} MiB"])
        return "".join(f"{name:13}{value}\n" for name, value in rows)


def look(data, now=None):
    """What the files in `krill-data` tell."""
    found = Health(now=int(time.time()) if now is None else now)
    for name in sorted(os.listdir(data)):
        is_journal = name == PRESS or name.startswith("desk-")
        if is_journal and os.path.getsize(os.path.join(data, name)) > 17:
            found.journals[name] = os.path.getsize(os.path.join(data, name))
    edition = points.exported(os.path.join(data, "repo"))
    found.serial, found.session = edition.serial, edition.session
    if edition.anchors is not None:
        found.begins, found.ends = edition.anchors.begins, min(it.ends for it in edition.points)
    return found
