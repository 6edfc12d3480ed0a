"""What was seen of a run from outside: the lines that each session was given, the replies that were heard, and when."""
import json
from dataclasses import dataclass, field

ALWAYS, NEVER = float("-inf"), float("inf")
WORDS = {"add", "delete", "parents add", "children add", "children update", "children remove", "children suspend",
         "children unsuspend", "roas update", "keyroll init", "keyroll activate"}


@dataclass
class Sent:
    """A line that gets a reply, and when it was given. `line` is None where it is no command of the table that is well."""

    text: str
    line: dict | None
    at: float = ALWAYS

    def is_command(self):
        return self.line is not None and self.line["command"] in WORDS

    def changes(self):
        return self.is_command() or self.line == {"command": "publish"}


@dataclass
class Heard:
    """A reply, and when it was there."""

    reply: dict
    at: float = NEVER


@dataclass
class Session:
    """One session's lines, and the replies to the first of them."""

    name: str
    sent: list = field(default_factory=list)
    heard: list = field(default_factory=list)

    def pairs(self):
        return zip(self.sent, self.heard)

    def unheard(self):
        return self.sent[len(self.heard):]


@dataclass
class Run:
    """A run over a store, from one opening to its end: what was found at first, what each session saw, whether the run came
    to the end of its inputs, and what was found behind it."""

    before: dict
    sessions: list
    is_whole: bool
    after: dict
    # All editions, and how many of them were there before.
    editions: list
    editions_before: int


def sent(text, at=ALWAYS):
    """A line as it is given. The lines that these trials give are well, or are no command at all."""
    try:
        line = json.loads(text)
    except ValueError:
        line = None
    is_well = isinstance(line, dict) and not line.pop("#", None)
    return Sent(text, line if is_well else None, at)
