"""Two sessions that need each other: the first publishes and awaits the second's edition, the second awaits the first's and
publishes then. A program that answered one session after the other would answer NotYet to the one that it runs first."""
import json

from ends import check, read, run, update, write
from parts import numbers_of_files
from store import Store

UPDATES, LOOKS = 50, 1_000_000_000


def lines(*groups):
    return "".join(line + "\n" for group in groups for line in group)


def awaits(serial):
    return json.dumps({"command": "await", "serial": serial, "looks": LOOKS})


def replies(what, text, count):
    told = [json.loads(line) for line in text.splitlines()]
    check(len(told) == count, f"{what}: {count} replies", text[-500:])
    return told


def try_meeting(folder):
    store, other = Store(folder), numbers_of_files()[0]
    publish = '{"command":"publish"}'
    first = [update(number) for number in range(UPDATES)]
    second = [update(1000 + number) for number in range(UPDATES + 1)]
    source, sink = store.path(f"session-{other}.in"), store.path(f"session-{other}.out")
    write(source, lines(second[:UPDATES], [awaits(1), second[UPDATES], publish]))
    write(sink)
    done = run(store, lines=lines(first, [publish, awaits(2)]))
    check(done.returncode == 0, "two sessions that wait for each other", done)
    one, two = replies("the first", done.stdout, UPDATES + 2), replies("the second", read(sink), UPDATES + 3)
    accepted = one[:UPDATES] + two[:UPDATES] + two[UPDATES + 1:UPDATES + 2]
    check(all(reply["reply"] == "accepted" for reply in accepted), "updates of two sessions", accepted)
    check((one[UPDATES]["reply"], one[UPDATES]["serial"]) == ("published", 1), "the first's edition", one[UPDATES])
    check(one[UPDATES + 1] == {"reply": "reached", "serial": 2}, "what the first awaits", one[UPDATES + 1])
    check(two[UPDATES] == {"reply": "reached", "serial": 1}, "what the second awaits", two[UPDATES])
    check((two[-1]["reply"], two[-1]["serial"]) == ("published", 2), "the second's edition", two[-1])
    store.remove_sessions()
    held = [line["add"] for line in store.found()["ta"]]
    check(len(held) == 2 * UPDATES + 1, "a place for each command", len(held))
    for mine in (first, second):
        wanted = [json.loads(line)["add"] for line in mine]
        check([added for added in held if added in wanted] == wanted, "a session's commands stand in its order", held)
    return 2 * UPDATES + 1
