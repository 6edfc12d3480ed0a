"""Faults that are planted in what was seen of right runs, and programs that are made wrong: the judge has to find each.

Each fault changes a run at a place where no right program can have done so, and answers whether there was such a place."""
import copy

from judge import judged
from logs import Run
from model import ANCHOR, NO_RESOURCES, desk_of, full
from played import Program, refused, runs

# In so many runs each fault is planted, where as many have a place for it.
PLANTED = 2


def copied(run):
    return Run(copy.deepcopy(run.before), copy.deepcopy(run.sessions), run.is_whole, copy.deepcopy(run.after),
               copy.deepcopy(run.editions), run.editions_before)


def replies(run, kind, more=lambda session, given, heard: True):
    """Every reply of that kind, with its session and line."""
    return [(session, given, heard) for session in run.sessions for given, heard in session.pairs()
            if heard.reply.get("reply", heard.reply.get("refused")) == kind and more(session, given, heard)]


def own_before(session, heard, name):
    """How many commands of the authority the session knows at least by its own accepted ones, before that reply."""
    known = 0
    for _, each in session.pairs():
        if each is heard:
            return known
        if each.reply.get("authority") == name and each.reply.get("reply") == "accepted":
            known = each.reply["count"]
    return known


def invented_command(draw, run):
    found = replies(run, "history commands", lambda _, __, heard: heard.reply["commands"])
    if found:
        rows = draw.choice(found)[2].reply["commands"]
        draw.choice(rows)["line"] = {"command": "roas update", "ca": "ta", "add": ["192.0.2.0/24 => 9"], "remove": []}
    return found


def command_before_an_own_one(draw, run):
    """A history without the session's own last command."""
    found = [(heard, own) for session, given, heard in replies(run, "history commands")
             for own in [own_before(session, heard, given.line["ca"])] if own > len(run.before.get(given.line["ca"], ()))]
    if found:
        heard, own = draw.choice(found)
        heard.reply["commands"] = heard.reply["commands"][:own - 1]
    return found


def origin_before_an_own_one(draw, run):
    """A list of origins without one that the session itself has added last, and nobody removes."""
    found = []
    for session, given, heard in replies(run, "roas list"):
        for before, answer in session.pairs():
            if answer is heard:
                break
            if answer.reply.get("reply") == "accepted" and desk_of(before.line) == given.line["ca"] \
                    and any("/32" in text for text in before.line.get("add", [])):
                rows = [row for row in heard.reply["origins"] if row["origin"] in full(before.line)["add"]]
                found += [(heard, row) for row in rows]
    if found:
        heard, row = draw.choice(found)
        heard.reply["origins"].remove(row)
    return found


def child_that_is_none(draw, run):
    found = replies(run, "show")
    if found:
        reply = draw.choice(found)[2].reply
        reply["children"] = [{"name": "zz", "resources": NO_RESOURCES, "suspended": False}, *reply["children"]]
    return found


def parent_of_another(draw, run):
    found = replies(run, "show", lambda _, given, __: given.line["ca"] == ANCHOR)
    if found:
        draw.choice(found)[2].reply["parent"] = "a0"
    return found


def certified_for_more(draw, run):
    found = replies(run, "show", lambda _, __, heard: heard.reply["certified"]["ipv4"] not in ("0.0.0.0/0",))
    if found:
        draw.choice(found)[2].reply["certified"]["ipv4"] = "0.0.0.0/0"
    return found


def another_stage(draw, run):
    found = replies(run, "show")
    if found:
        draw.choice(found)[2].reply["stage"] = "retiring"
    return found


def another_state(draw, run):
    found = replies(run, "roas list", lambda _, __, heard: heard.reply["origins"])
    if found:
        row = draw.choice(draw.choice(found)[2].reply["origins"])
        row["state"] = "held" if row["state"] == "published" else "published"
    return found


def origins_out_of_order(draw, run):
    found = replies(run, "roas list", lambda _, __, heard: len(heard.reply["origins"]) > 1)
    if found:
        draw.choice(found)[2].reply["origins"].reverse()
    return found


def place_told_twice(draw, run):
    """Two sessions are told the same place."""
    found = replies(run, "accepted")
    if len({heard.reply["authority"] for _, _, heard in found}) < len(found):
        by = {}
        for session, _, heard in found:
            by.setdefault(heard.reply["authority"], []).append(heard)
        heards = draw.choice([them for them in by.values() if len(them) > 1])
        first, second = draw.sample(heards, 2)
        second.reply["count"] = first.reply["count"]
        return True
    return False


def place_of_another_authority(draw, run):
    found = replies(run, "accepted", lambda _, given, __: given.line["command"] == "roas update")
    if found:
        reply = draw.choice(found)[2].reply
        reply["authority"] = "a0" if reply["authority"] != "a0" else "ta"
    return found


def places_exchanged(draw, run):
    """A session's own commands at one authority in another order than it gave them."""
    for session in draw.sample(run.sessions, len(run.sessions)):
        mine = [(given, heard) for given, heard in session.pairs() if heard.reply.get("reply") == "accepted"]
        for (one, first), (other, second) in zip(mine, mine[1:]):
            if desk_of(one.line) == desk_of(other.line) and full(one.line) != full(other.line):
                first.reply["count"], second.reply["count"] = second.reply["count"], first.reply["count"]
                lines = run.after[desk_of(one.line)]
                places = sorted((first.reply["count"], second.reply["count"]))
                a, b = (place - 1 for place in places)
                lines[a], lines[b] = lines[b], lines[a]
                return True
    return False


def command_entered_twice(draw, run):
    """An accepted command stands twice in the store, the second time behind all."""
    found = [(name, line) for name, lines in run.after.items() for line in lines[len(run.before.get(name, ())):]
             if line["command"] == "children update"]
    found = [each for each in found if not any(s.unheard() for s in run.sessions)]
    if found:
        name, line = draw.choice(found)
        run.after[name].append(line)
    return found


def command_lost(draw, run):
    """An accepted command isn't in the store."""
    found = replies(run, "accepted", lambda _, __, heard: heard.reply["count"] == len(run.after[heard.reply["authority"]]))
    found = [each for each in found if all(edition.cut.get(each[2].reply["authority"], 0) < each[2].reply["count"]
                                           for edition in run.editions)]
    if found:
        run.after[draw.choice(found)[2].reply["authority"]].pop()
    return found


def old_command_lost(draw, run):
    found = [name for name, lines in run.before.items() if len(lines) > 1]
    if found:
        del run.after[draw.choice(found)][0]
    return found


def command_of_nobody(draw, run):
    run.after[ANCHOR].append({"command": "roas update", "ca": "ta", "add": ["192.0.2.7/32 => 77"], "remove": []})
    return True


def two_of_one_session_unheard(draw, run):
    """Behind a kill a session has two commands whose replies it didn't hear."""
    for session in draw.sample(run.sessions, len(run.sessions)):
        mine = [place for place, (_, heard) in enumerate(session.pairs()) if heard.reply.get("reply") == "accepted"]
        if not run.is_whole and len(mine) > 2:
            session.heard = session.heard[:mine[-2]]
            return True
    return False


def refusal_of_none(draw, run):
    found = replies(run, "accepted", lambda _, given, __: any("/32" in text for text in given.line.get("add", [])))
    found = [each for each in found if each[2].reply["count"] == len(run.after[each[2].reply["authority"]])]
    if found:
        _, given, heard = draw.choice(found)
        run.after[heard.reply["authority"]].pop()
        heard.reply = refused(12, "OriginThere", full(given.line)["add"][0])
    return found


def unknown_though_listed(draw, run):
    found = replies(run, "show", lambda _, given, __: given.line["ca"] in run.before)
    if found:
        _, given, heard = draw.choice(found)
        heard.reply = refused(20, "NoSuchAuthority", given.line["ca"])
    return found


def known_before_it_is_listed(draw, run):
    found = replies(run, "NoSuchAuthority", lambda _, given, __: given.line["command"] == "history commands")
    if found:
        _, given, heard = draw.choice(found)
        heard.reply = {"authority": given.line["ca"], "commands": [], "reply": "history commands"}
        heard.at = -1
    return found


def name_missing_from_the_list(draw, run):
    found = replies(run, "list", lambda _, __, heard: len(heard.reply["authorities"]) > 1)
    found = [each for each in found if len(each[2].reply["authorities"]) <= len(run.before)]
    if found:
        draw.choice(found)[2].reply["authorities"].pop()
    return found


def deleted_that_is_not(draw, run):
    found = replies(run, "list")
    if found:
        draw.choice(found)[2].reply["authorities"][0]["deleted"] = True
    return found


def serial_that_falls(draw, run):
    for session in draw.sample(run.sessions, len(run.sessions)):
        seen = run.editions_before
        for given, heard in session.pairs():
            if heard.reply.get("reply") == "serial" and seen > 0:
                heard.reply["serial"] = seen - 1
                return True
            seen = max(seen, heard.reply.get("serial", 0))
    return False


def serial_that_is_none(draw, run):
    found = replies(run, "serial")
    if found:
        draw.choice(found)[2].reply["serial"] = len(run.editions) + 1
    return found


def reached_below_what_was_asked(draw, run):
    found = replies(run, "reached", lambda _, given, heard: given.line["serial"] > 0)
    if found:
        _, given, heard = draw.choice(found)
        heard.reply["serial"] = given.line["serial"] - 1
    return found


def serial_told_twice(draw, run):
    """Two publications are told one serial."""
    found = replies(run, "published")
    if len(found) > 1:
        one, other = draw.sample(found, 2)
        other[2].reply = dict(one[2].reply)
    return len(found) > 1


def other_numbers_of_an_edition(draw, run):
    found = replies(run, "published")
    if found:
        draw.choice(found)[2].reply[draw.choice(("objects", "origins", "moment"))] += 1
    return found


def edition_without_an_own_command(draw, run):
    """A publication takes in less than its session was told before."""
    for session, given, heard in draw.sample(found := replies(run, "published"), len(found)):
        for name in run.after:
            own = own_before(session, heard, name)
            edition = run.editions[heard.reply["serial"] - 1]
            if own > len(run.before.get(name, ())) and edition.cut.get(name, 0) >= own:
                edition.cut[name] = own - 1
                return True
    return False


def nothing_though_there_is_something(draw, run):
    """`Nothing` behind an edition that lacks an own accepted command."""
    for session in draw.sample(run.sessions, len(run.sessions)):
        for _, heard in session.pairs():
            for name in run.after if heard.reply.get("refused") == "Nothing" else ():
                own = own_before(session, heard, name)
                lacking = [edition.serial for edition in run.editions if edition.cut.get(name, 0) < own]
                if own > len(run.before.get(name, ())):
                    heard.reply["detail"] = str(max(lacking, default=0))
                    return True
    return False


def edition_that_nobody_made(draw, run):
    found = replies(run, "published")
    if found and run.is_whole:
        found[0][2].reply = refused(24, "Nothing", "1")
    return found and run.is_whole


def cut_that_falls(draw, run):
    if len(run.editions) < 2:
        return False
    run.editions[-1].cut[ANCHOR] = run.editions[-2].cut[ANCHOR] - 1
    return True


def moment_that_stays(draw, run):
    if len(run.editions) < 2:
        return False
    run.editions[-1].moment = run.editions[-2].moment
    return True


def roa_too_many(draw, run):
    if run.editions:
        draw.choice(run.editions).roas.add("ta/0/31302e302e302e302f38203d3e2039.roa")
    return run.editions


def roa_missing(draw, run):
    found = [edition for edition in run.editions if edition.roas]
    if found:
        draw.choice(found).roas.pop()
    return found


def edition_lost(draw, run):
    if run.editions and replies(run, "published", lambda _, __, heard: heard.reply["serial"] == len(run.editions)):
        run.editions.pop()
        return True
    return False


def reply_missing(draw, run):
    found = [session for session in run.sessions if session.heard]
    if run.is_whole and found:
        draw.choice(found).heard.pop()
    return run.is_whole and found


def reply_too_many(draw, run):
    session = draw.choice(run.sessions)
    session.heard += [copy.deepcopy(session.heard[-1])] * (len(session.sent) - len(session.heard) + 1) if session.heard else []
    return session.heard


def replies_of_another_session(draw, run):
    """Two sessions get each other's replies."""
    one, other = draw.sample(run.sessions, 2)
    count = min(len(one.heard), len(other.heard))
    one.heard[:count], other.heard[:count] = other.heard[:count], one.heard[:count]
    return count > 20


def command_told_before_it_was_given(draw, run):
    found = replies(run, "history commands", lambda _, given, heard: len(heard.reply["commands"])
                    > len(run.before.get(given.line["ca"], ())))
    if found:
        _, given, heard = draw.choice(found)
        heard.at, given.at = -1, -2
    return found


def older_than_what_another_was_told(draw, run):
    """A history that lacks what another session was told before this one asked."""
    for session, given, heard in draw.sample(found := replies(run, "history commands"), len(found)):
        name, before = given.line["ca"], len(run.before.get(given.line["ca"], ()))
        told = max((it.reply["count"] for other, _, it in replies(run, "accepted") if other is not session
                    and it.reply["authority"] == name and it.at < given.at), default=0)
        if told > max(before, own_before(session, heard, name)):
            heard.reply["commands"] = heard.reply["commands"][:told - 1]
            return True
    return False


def odd_line_accepted(draw, run):
    for session, given, heard in replies(run, "BadLine"):
        heard.reply = {"authority": "ta", "count": len(run.after[ANCHOR]), "reply": "accepted"}
        return True
    return False


FAULTS = [invented_command, command_before_an_own_one, origin_before_an_own_one, child_that_is_none, parent_of_another,
          certified_for_more, another_stage, another_state, origins_out_of_order, place_told_twice, place_of_another_authority,
          places_exchanged, command_entered_twice, command_lost, old_command_lost, command_of_nobody,
          two_of_one_session_unheard, refusal_of_none, unknown_though_listed, known_before_it_is_listed, name_missing_from_the_list, deleted_that_is_not,
          serial_that_falls, serial_that_is_none, reached_below_what_was_asked, serial_told_twice, other_numbers_of_an_edition,
          edition_without_an_own_command, nothing_though_there_is_something, edition_that_nobody_made, cut_that_falls,
          moment_that_stays, roa_too_many, roa_missing, edition_lost, reply_missing, reply_too_many,
          replies_of_another_session, command_told_before_it_was_given, older_than_what_another_was_told, odd_line_accepted]


# ---- programs that are made wrong

class ReadsWithoutALook(Program):
    """Each session reads what it knows, and learns of others by its own commands alone."""

    def __init__(self, store, draw):
        super().__init__(store, draw)
        self.known = {}

    def commit(self, session, line):
        reply = super().commit(session, line)
        self.known[session.name, desk_of(line)] = len(self.store.commands[desk_of(line)])
        return reply

    def history(self, session, name):
        return super().history(session, name)[:self.known.get((session.name, name), 0)]


class ForgetsOwnCommands(Program):
    """Reads are of what there was before the session's own last command."""

    def commit(self, session, line):
        session.last = desk_of(line), len(self.store.commands[desk_of(line)])
        return super().commit(session, line)

    def history(self, session, name):
        last = getattr(session, "last", (None, 0))
        return super().history(session, name)[:last[1] if last[0] == name else None]


class CommitsWithoutALock(Program):
    """The place is read, others go on, and the place is told, whoever took it meanwhile."""

    def command(self, session, line):
        name = desk_of(line)
        place = len(self.store.commands.get(name, ())) + 1
        for _ in range(3):
            yield
        reply, changed = yield from super().command(session, line)
        return ({**reply, "count": place}, changed) if changed else (reply, changed)


class LosesCommands(Program):
    """Of two commands at the same time one is told and lost."""

    def commit(self, session, line):
        reply = super().commit(session, line)
        if "reply" in reply and line["command"] == "roas update" and self.draw.random() < 0.05:
            self.store.commands[desk_of(line)].pop()
        return reply


class GathersTooEarly(Program):
    """A publication takes in what there was before the last one."""

    def gather(self, session):
        cut = yield from super().gather(session)
        return {name: min(count, max(self.store.cut.get(name, 0), count - 2)) for name, count in cut.items()}


class ShowsTooLate(Program):
    """The board shows an edition behind the next one's reply."""

    def show(self, serial):
        super().show(serial - 1)


class TellsEachTheSameSerial(Program):
    """A publication that waited for another one is told that one's edition as its own."""

    def publish(self, session):
        waited = self.store.is_pressing
        reply, changed = yield from super().publish(session)
        return ({**reply, "serial": reply["serial"] - 1}, changed) if waited and changed else (reply, changed)


class AnswersAnotherSession(Program):
    """What a session is told and another one asked."""

    def answer(self, session, given):
        reply, changed = yield from super().answer(session, given)
        if not changed and self.draw.random() < 0.2:
            kept, self.kept = getattr(self, "kept", reply), reply
            return kept, changed
        return reply, changed


class TellsLate(Program):
    """Replies to accepted commands wait, so that a kill takes several of them."""

    def answer(self, session, given):
        reply, _ = yield from super().answer(session, given)
        return reply, False


PROGRAMS = [ReadsWithoutALook, ForgetsOwnCommands, CommitsWithoutALock, LosesCommands, GathersTooEarly, ShowsTooLate,
            TellsEachTheSameSerial, AnswersAnotherSession, TellsLate]


def try_right(seeds):
    """What the judge finds in runs of a right program, and how many runs and replies there were."""
    count = heard = strays = 0
    for seed in seeds:
        for run in runs(seed):
            found, unheard = judged(run)
            if found:
                return [f"in a run of a right program, by seed {seed}: {found[0]}"], ""
            count, strays = count + 1, strays + unheard
            heard += sum(len(session.heard) for session in run.sessions)
    return [], f"{count} runs of a right program with {heard} replies, {strays} commands and editions of which were not heard"


def try_faults(draw, seeds):
    """Which faults the judge doesn't find."""
    kept, missed = [run for seed in seeds for run in runs(seed)], []
    for fault in FAULTS:
        planted = 0
        for run in draw.sample(kept, len(kept)):
            if planted == PLANTED:
                break
            wrong = copied(run)
            if fault(draw, wrong):
                planted += 1
                if not judged(wrong)[0]:
                    missed.append(f"planted and not found: {fault.__name__}")
        if not planted:
            missed.append(f"nowhere to plant: {fault.__name__}")
    return missed


def try_programs(seeds):
    """Which programs that are made wrong the judge takes for right."""
    missed = []
    for program in PROGRAMS:
        if not any(judged(run)[0] for seed in seeds for run in wrong_runs(seed, program)):
            missed.append(f"a wrong program that isn't found: {program.__name__}")
    return missed


def wrong_runs(seed, program):
    """The runs of a wrong program. One that comes to a state that no program comes to ends there."""
    try:
        yield from runs(seed, program)
    except (KeyError, ValueError, IndexError):
        return
