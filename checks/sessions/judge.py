"""Judges what was seen of a run by the rules of docs/protocol.md, and says what breaks them.

Places are counted from 1: the command at place N of an authority is the Nth that it has accepted. Of each session is kept
what it has seen at least: a number of commands for each authority, and a serial. A reply has to be one over lists that are
no shorter than that, nor shorter than what any session was told before the line was given; and over no command that wasn't
given yet when the reply was heard."""
import itertools, json
from bisect import bisect_left, bisect_right

from logs import ALWAYS
from model import ANCHOR, Lists, desk_of, full, origin_of, origin_text, rank, told_by

MOST_TOLD = 12
# The replies whose names aren't their lines' own.
KINDS = {"await": "reached", "publish": "published"}


def rising(told):
    """Of times and numbers the times, and beside each the greatest number told up to it."""
    told.sort()
    return [at for at, _ in told], [*itertools.accumulate((number for _, number in told), max)]


def last_before(told, at):
    """The greatest number that was told before that time, or 0."""
    times, numbers = told
    return numbers[place - 1] if (place := bisect_left(times, at)) else 0


class Judge:
    def __init__(self, run):
        self.run, self.complaints = run, []
        self.lists = Lists(run.after)
        self.names = list(run.after)
        self.editions = {edition.serial: edition for edition in run.editions}
        self.serial_before = run.editions_before
        self.owner, self.publisher = {}, {}
        self.told_places, self.told_serials = {name: [] for name in self.names}, []

    def complain(self, what, *details):
        if len(self.complaints) < MOST_TOLD:
            self.complaints.append(" ".join([what + ":", *map(str, details)])[:700])

    # ---- the store

    def store(self):
        """Lists only grew, each command was accepted in its turn, and each edition tells what it has to."""
        for name, lines in self.run.before.items():
            if self.run.after.get(name, [])[:len(lines)] != lines:
                self.complain("lost", f"the first {len(lines)} commands of {name} aren't those that were there")
        for name, lines in self.run.after.items():
            first = len(self.run.before.get(name, ()))
            for place, config in self.lists.between(name, first, len(lines) - 1):
                refusal = config.verdict(lines[place])
                if refusal:
                    self.complain("refusable", f"{name} {place + 1}", lines[place], refusal)
                    break
        self.told = told_by(self.lists, self.run.editions)
        moment, cut = 0, {}
        for serial, edition in enumerate(self.run.editions, 1):
            self.edition(serial, edition, moment, cut)
            moment, cut = edition.moment, edition.cut

    def edition(self, serial, edition, moment, cut):
        if edition.serial != serial or edition.moment <= moment:
            self.complain("edition", f"serial {edition.serial} of {edition.moment} stands as number {serial} behind {moment}")
        for name in {**cut, **edition.cut}:
            first, count = cut.get(name, 0), edition.cut.get(name, 0)
            if not first <= count <= self.lists.length(name):
                self.complain("cut", f"edition {serial} takes in {count} of the {self.lists.length(name)} of {name}, behind {first}")
        if edition.serial in self.told and edition.roas != self.told[edition.serial].paths():
            odd = sorted(edition.roas ^ self.told[edition.serial].paths())[:2]
            self.complain("owed", f"edition {serial} has not the ROAs that are owed: {odd}")

    # ---- who made what

    def makers(self):
        """Each place and each serial is somebody's, once."""
        for session in self.run.sessions:
            for given, heard in session.pairs():
                if heard.reply.get("reply") == "accepted" and given.is_command():
                    self.accepted(session, given, heard)
                if heard.reply.get("reply") == "published" and given.line == {"command": "publish"}:
                    self.published(session, given, heard)
        self.told_places = {name: rising(places) for name, places in self.told_places.items()}
        self.told_serials = rising(self.told_serials)
        # Of each place since when it can be there: no earlier than those before it, and than its own line was given.
        self.there_since = {}
        for name, lines in self.run.after.items():
            since = [ALWAYS] * len(self.run.before.get(name, ()))
            for place in range(len(since) + 1, len(lines) + 1):
                given = self.owner[name, place][1].at if (name, place) in self.owner else ALWAYS
                since.append(max(given, since[-1] if since else ALWAYS))
            self.there_since[name] = since
        self.strays()

    def accepted(self, session, given, heard):
        name, place = heard.reply.get("authority"), heard.reply.get("count")
        if name != desk_of(given.line) or not isinstance(place, int):
            return self.complain("accepted", session.name, given.text, heard.reply)
        lines = self.run.after.get(name, [])
        if not len(self.run.before.get(name, ())) < place <= len(lines):
            return self.complain("accepted", f"{session.name}: {heard.reply}: {name} has {len(lines)} commands")
        if lines[place - 1] != full(given.line):
            return self.complain("accepted", f"{session.name}: {given.text} at {name} {place}, where {lines[place - 1]} is")
        if (name, place) in self.owner:
            return self.complain("twice", f"{name} {place} was told {self.owner[name, place][0].name} and {session.name}")
        self.owner[name, place] = session, given
        self.told_places[name].append((heard.at, place))

    def published(self, session, given, heard):
        serial = heard.reply.get("serial")
        if serial in self.publisher:
            return self.complain("twice", f"serial {serial} was told {self.publisher[serial][0].name} and {session.name}")
        if serial not in self.editions or serial <= self.serial_before:
            return self.complain("published", f"{session.name}: {heard.reply}: no such edition was made")
        self.publisher[serial] = session, given
        self.told_serials.append((heard.at, serial))

    def strays(self):
        """What nobody was told: of each session at most one command or edition, one of those whose reply wasn't heard."""
        strays = [(name, place) for name, lines in self.run.after.items()
                  for place in range(len(self.run.before.get(name, ())) + 1, len(lines) + 1)
                  if (name, place) not in self.owner]
        strays += [(None, serial) for serial in self.editions if serial > self.serial_before and serial not in self.publisher]
        self.stray_count = len(strays)
        if self.run.is_whole and strays:
            return self.complain("stray", f"nobody was told of {strays[:5]}, and every reply was heard")
        could = [[number for number, session in enumerate(self.run.sessions) if self.could_make(session, stray)]
                 for stray in strays]
        of_session = {}

        def placed(stray, tried):
            for number in could[stray]:
                if number not in tried:
                    tried.add(number)
                    if number not in of_session or placed(of_session[number], tried):
                        of_session[number] = stray
                        return True
            return False

        for number, stray in enumerate(strays):
            if not placed(number, set()):
                what = self.run.after[stray[0]][stray[1] - 1] if stray[0] else "an edition"
                self.complain("stray", f"{stray}: {what} is no session's that was cut off, beside {len(strays) - 1} others")

    def could_make(self, session, stray):
        """Whether an unheard line of the session can have made that, behind all that it was told before."""
        name, place = stray
        if name is None:
            return any(given.line == {"command": "publish"} for given in session.unheard())
        mine = [at for (of, at), (whose, _) in self.owner.items() if of == name and whose is session]
        wanted = self.run.after[name][place - 1]
        return all(at < place for at in mine) and any(
            given.is_command() and desk_of(given.line) == name and full(given.line) == wanted for given in session.unheard())

    # ---- what sessions were told

    def sessions(self):
        for session in self.run.sessions:
            if len(session.heard) > len(session.sent):
                self.complain("replies", f"{session.name} has {len(session.heard)} to {len(session.sent)} lines")
            if self.run.is_whole and session.unheard():
                self.complain("replies", f"{session.name} has no reply to {session.unheard()[0].text}")
            Follower(self, session).follow()

    def first_given_behind(self, at):
        """Of each authority how many commands can have been accepted at that time: none before it was given."""
        return {name: bisect_right(since, at) for name, since in self.there_since.items()}

    def judged(self):
        self.store()
        self.makers()
        self.sessions()
        return self.complaints


class Follower:
    """Follows a session's replies, with what it has seen."""

    def __init__(self, judge, session):
        self.judge, self.session = judge, session
        self.seen = {name: len(lines) for name, lines in judge.run.before.items()}
        self.serial = judge.serial_before
        self.given = self.heard = None

    def follow(self):
        for self.given, self.heard in self.session.pairs():
            self.learn_told_elsewhere()
            try:
                self.take()
            except (AttributeError, KeyError, TypeError, ValueError) as odd:
                self.complain("shape", odd)

    def take(self):
        """Takes in a reply."""
        line, reply = self.given.line, self.heard.reply
        if line is None:
            if reply.get("code") not in (31, 32, 33):
                self.complain("odd line")
            return
        kind = "accepted" if self.given.is_command() else KINDS.get(line["command"], line["command"])
        if "refused" not in reply and reply["reply"] != kind:
            return self.complain("another line's")
        if kind == "accepted":
            return self.command()
        {"show": self.show, "roas list": self.roas, "history commands": self.history, "list": self.list,
         "serial": self.looked, "await": self.awaited, "publish": self.publication}[line["command"]]()

    def complain(self, what, *details):
        seen = self.seen.get(self.given.line.get("ca"), 0) if self.given.line else 0
        self.judge.complain(what, f"{self.session.name}: {self.given.text} -> {json.dumps(self.heard.reply)[:300]}",
                            f"(seen {seen}, serial {self.serial})", *details)

    # ---- what it knows

    def learn_told_elsewhere(self):
        """What any session was told before this line was given."""
        at = self.given.at
        for name, places in self.judge.told_places.items():
            self.learn(name, last_before(places, at))
        self.see(last_before(self.judge.told_serials, at))

    def learn(self, name, place):
        self.seen[name] = max(self.seen.get(name, 0), place)

    def see(self, serial):
        """An edition that is seen was made of commands that are seen by any later read."""
        if serial > self.serial:
            self.serial = serial
            if serial in self.judge.editions:
                for name, count in self.judge.editions[serial].cut.items():
                    self.learn(name, count)

    def last(self, name):
        """The last place of the authority that this reply can tell of."""
        if not hasattr(self.heard, "most"):
            self.heard.most = self.judge.first_given_behind(self.heard.at)
        return self.heard.most.get(name, 0)

    def configs(self, name):
        return self.judge.lists.between(name, self.seen.get(name, 0), self.last(name))

    def is_serial(self, serial):
        """Whether that is the serial of an edition that can be seen now."""
        made = serial == 0 or serial in self.judge.editions
        if not made or not isinstance(serial, int) or serial < self.serial:
            return False
        maker = self.judge.publisher.get(serial)
        return not maker or maker[1].at <= self.heard.at

    # ---- refusals

    def unknown_name(self, name):
        """The reply says that no authority has the name: so it was for some list of the anchor's."""
        listed = self.judge.lists.place_of_name(name)
        if self.heard.reply != {"code": 20, "detail": name, "refused": "NoSuchAuthority"}:
            return False
        if listed is not None and listed <= self.seen.get(ANCHOR, 0):
            self.complain("unknown name", f"listed by the anchor's command {listed}")
        return True

    def known_name(self, name):
        """The reply is of an authority: so its name is listed. Whether it is."""
        listed = self.judge.lists.place_of_name(name)
        if listed is None or listed > self.last(ANCHOR):
            self.complain("invented", "no authority has that name yet")
            return False
        self.learn(ANCHOR, listed)
        return True

    # ---- replies

    def command(self):
        name, reply = desk_of(self.given.line), self.heard.reply
        if reply.get("reply") == "accepted":
            place = reply["count"]
            if self.judge.owner.get((name, place), (None,))[0] is not self.session:
                return
            if place <= self.seen.get(name, 0):
                self.complain("order", f"the place isn't behind what was seen")
            if self.known_name(name):
                self.learn(name, place)
            return
        if self.unknown_name(name) or not self.known_name(name):
            return
        for place, config in self.configs(name):
            refusal = config.verdict(self.given.line)
            if refusal and reply == {"code": refusal[0], "detail": refusal[2], "refused": refusal[1]}:
                return self.learn(name, place)
        self.complain("refusal", f"no such refusal over {self.seen.get(name, 0)} to {self.last(name)} commands")

    def history(self):
        name, reply = self.given.line["ca"], self.heard.reply
        if self.unknown_name(name) or not self.known_name(name):
            return
        rows = reply.get("commands", [])
        lines = self.judge.run.after[name][:len(rows)]
        wanted = {"authority": name, "reply": "history commands",
                  "commands": [{"count": number, "line": line} for number, line in enumerate(lines, 1)]}
        if reply != wanted:
            return self.complain("invented", f"the first {len(rows)} commands of {name} are others")
        if not self.seen.get(name, 0) <= len(rows):
            return self.complain("stale", f"{len(rows)} commands, {self.seen.get(name, 0)} were seen")
        if len(rows) > self.last(name):
            return self.complain("early", f"{len(rows)} commands, {self.last(name)} were given")
        self.learn(name, len(rows))

    def list(self):
        rows = self.heard.reply.get("authorities", [])
        names = [row["name"] for row in rows]
        if self.heard.reply.get("reply") != "list" or not names or names != self.judge.names[:len(names)]:
            return self.complain("invented", f"the names are {self.judge.names}")
        listed = [self.judge.lists.place_of_name(name) for name in self.judge.names]
        if len(listed) > len(names) and listed[len(names)] <= self.seen.get(ANCHOR, 0):
            self.complain("stale", f"{self.judge.names[len(names)]} was seen")
        if listed[len(names) - 1] > self.last(ANCHOR):
            self.complain("early", f"{names[-1]} wasn't given yet")
        self.learn(ANCHOR, listed[len(names) - 1])
        for row in rows:
            self.listed_row(row["name"], row["deleted"])

    def listed_row(self, name, deleted):
        ended = next((place for place, line in enumerate(self.judge.run.after[name], 1) if line["command"] == "delete"), None)
        if deleted and (ended is None or ended > self.last(name)):
            self.complain("invented", f"{name} isn't deleted")
        elif deleted:
            self.learn(name, ended)
        elif ended is not None and ended <= self.seen.get(name, 0):
            self.complain("stale", f"{name} was deleted by command {ended}")

    def show(self):
        name, reply = self.given.line["ca"], self.heard.reply
        if self.unknown_name(name) or not self.known_name(name):
            return
        self.configured(name, lambda config: config.shown(), {it: reply.get(it) for it in ("parent", "children")})
        told = self.told(name)
        if told is None:
            return
        serial = reply["serial"]
        stage = self.judge.editions[serial].stages.get(name, "none") if serial else "none"
        wanted = {"authority": name, "certified": told.certified(name), "reply": "show", "serial": serial, "stage": stage}
        if {it: reply.get(it) for it in wanted} != wanted:
            self.complain("edition's", f"edition {serial} has {wanted}")

    def configured(self, name, what, told):
        """What the reply tells of the configuration is that behind some number of commands."""
        for place, config in self.configs(name):
            if what(config) == told:
                return self.learn(name, place)
        before = any(what(config) == told for _, config in self.judge.lists.between(name, 0, self.seen.get(name, 0) - 1))
        behind = any(what(config) == told for _, config
                     in self.judge.lists.between(name, self.last(name) + 1, self.judge.lists.length(name)))
        self.complain("stale" if before else "early" if behind else "invented",
                      f"so it isn't over {self.seen.get(name, 0)} to {self.last(name)} commands")

    def told(self, name):
        """What the edition tells that the reply names, and which is seen from now on."""
        serial = self.heard.reply.get("serial")
        if not self.is_serial(serial):
            return self.complain("serial", "such an edition can't be seen now")
        self.see(serial)
        return self.judge.told[serial]

    def roas(self):
        name, reply = self.given.line["ca"], self.heard.reply
        if self.unknown_name(name) or not self.known_name(name):
            return
        found = [(origin_of(row["origin"]), row["state"]) for row in reply.get("origins", [])]
        if [rank(origin) for origin, _ in found] != sorted({rank(origin) for origin, _ in found}):
            self.complain("invented", "the origins don't ascend")
        self.configured(name, lambda config: config.origins, {origin for origin, _ in found})
        told = self.told(name)
        if told is None:
            return
        for origin, state in found:
            if (wanted := told.state(name, origin)) != state:
                return self.complain("edition's", f"edition {reply['serial']}: {origin_text(origin)} is {wanted}")
        if reply.get("reply") != "roas list" or reply.get("authority") != name:
            self.complain("invented", "another reply")

    def looked(self):
        if self.heard.reply.get("reply") != "serial":
            return self.complain("invented", "no serial")
        self.told(ANCHOR)

    def awaited(self):
        reply, asked = self.heard.reply, self.given.line["serial"]
        if reply.get("reply") == "reached":
            if reply.get("serial", 0) < asked:
                self.complain("await", "that serial is below the one asked for")
            return self.told(ANCHOR)
        if reply.get("refused") != "NotYet" or int(reply["detail"]) >= asked or not self.is_serial(int(reply["detail"])):
            return self.complain("await", "so it isn't")
        self.see(int(reply["detail"]))

    def publication(self):
        reply = self.heard.reply
        if reply.get("reply") == "published":
            serial = reply["serial"]
            if self.judge.publisher.get(serial, (None,))[0] is not self.session:
                return
            if serial <= self.serial:
                self.complain("serial", "an edition of that serial or a later one was seen")
            edition = self.judge.editions[serial]
            wanted = {"moment": edition.moment, "objects": edition.objects, "origins": len(self.judge.told[serial].owed),
                      "reply": "published", "serial": serial}
            if reply != wanted:
                self.complain("published", f"edition {serial} has {wanted}")
        elif reply.get("refused") == "Nothing" and self.is_serial(int(reply["detail"])):
            serial = int(reply["detail"])
        else:
            return self.complain("published", "so it isn't")
        self.takes_in(serial)
        self.see(serial)

    def takes_in(self, serial):
        """The edition takes in no less than was seen as the publication was asked for."""
        cut = self.judge.editions[serial].cut if serial else {}
        less = {name: (cut.get(name, 0), count) for name, count in self.seen.items() if cut.get(name, 0) < count}
        if less:
            self.complain("cut", f"edition {serial} takes in less than was seen: {less}")
        more = {name: count for name, count in cut.items() if count > self.last(name)}
        if more and self.heard.reply.get("reply") == "published":
            self.complain("early", f"edition {serial} takes in what wasn't given: {more}")


def judged(run):
    """What breaks the rules, and how many commands and editions nobody was told of."""
    judge = Judge(run)
    return judge.judged(), judge.stray_count
