"""Kills within publications: at random moments, and behind calls of the system."""
import random, time

from place import Place, Reader, Wrong
from program import PUBLISH, Run, change, first_lines, last_published, many, run_whole
from traced import Traced

# Publications in a run: more than are done before it is killed.
IN_A_RUN = 25


def check_killed(place, before, kept, replies):
    """Store and repository after a kill, behind these replies, where `before` stood in the repository and so many editions
    were kept. The store has the editions that were told, or one more, and the repository the last one that was told or a
    later one. Gives what stands."""
    (serial, objects), now, found = last_published(replies), place.kept(), place.check()
    if now not in (max(serial, kept), max(serial, kept) + 1):
        raise Wrong(f"serial {serial} was told, {kept} editions were kept, and {now} are")
    least = serial or before and before[1] or 0
    if found is None:
        if least:
            raise Wrong(f"serial {least} was told, and nothing stands")
        return None
    if not least <= found[1] <= now or serial and found[1] == serial and found[2] != objects:
        raise Wrong(f"serial {serial} with {objects} objects was told, {now} are kept, and {found} stands")
    if before is not None and found[0] != before[0]:
        raise Wrong(f"{found} stands behind {before}")
    return found


def check_next_run(place):
    """The run behind a kill goes on behind the last edition, in the same session, and leaves no draft."""
    kept, before, replies, after = place.kept(), place.check(), run_whole(place, [change(), PUBLISH]), place.check()
    session = before[0] if before else after[0]
    if (last_published(replies)[0], *after[:2]) != (kept + 1, session, kept + 1):
        raise Wrong(f"behind kills and {kept} editions {replies} was told, and {after} stands after {before}")
    if place.has_draft():
        raise Wrong("a draft is left behind an export")


def new_place(name):
    """A place whose store has an authority and has published nothing."""
    place = Place(name)
    run_whole(place, first_lines())
    place.check_around()
    return place


def wait_for_a_moment(run):
    """Until some moment: behind some replies, and half of the time while a file is drafted, and a short while more."""
    run.hear(random.randrange(IN_A_RUN))
    until = time.time() + random.randrange(2)
    while time.time() < until and not run.place.has_draft():
        pass
    time.sleep(random.random() * random.choice((0, 0.0005, 0.005)))


def at_random(kills):
    """Kills at random moments, half of them with 200 origins more. Gives how many left a publication undone or untold, and
    how often the repository was read meanwhile."""
    place, undone, before, kept = new_place("random"), 0, None, 0
    reader = Reader(place)
    reader.start()
    for turn in range(kills):
        if turn == kills // 2:
            run_whole(place, [many(200, first=1)])
        run = Run(place)
        run.send(*[line for _ in range(IN_A_RUN) for line in (change(), PUBLISH)])
        wait_for_a_moment(run)
        run.kill()
        before, told = check_killed(place, before, kept, run.replies()), last_published(run.replies())[0]
        undone += place.has_draft() or place.kept() > max(kept, told)
        kept = place.kept()
    reader.end()
    check_next_run(place)
    return undone, reader.looks


def at_stop(place, stop):
    """Kills the program at that stop of the publication of a third edition, from the line before it on, or behind it. Gives
    how many stops it came to."""
    before, kept, traced = place.check(), place.kept(), Traced(place)
    traced.run.send(change(), PUBLISH, change(), PUBLISH)
    traced.run.hear(4)
    traced.hold()
    traced.run.send(change(), PUBLISH)
    seen = 0
    while seen < stop and traced.replies_told() < 6:
        traced.step()
        seen += 1
    traced.kill()
    check_killed(place, before, kept, traced.run.replies())
    return seen


def at_calls(kills):
    """Kills at so many stops, of all that a publication comes to, or at each of them. Gives how many these are, and how
    many were tried."""
    place = new_place("calls")
    count = at_stop(place, 10**6)
    stops = sorted(random.sample(range(1, count), min(kills, count - 1)))
    for stop in stops:
        at_stop(place, stop)
    check_next_run(place)
    return count, len(stops)
