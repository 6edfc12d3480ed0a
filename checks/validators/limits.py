"""What relying parties do at their limits: chains that are too long, an edition whose moment hasn't come yet, the new trust
anchor of a store that lost its editions, and a store that was restored from an older copy. What they do there is told and
not judged."""
import dataclasses, functools, os, shutil, time

import parties
from program import Program
from repository import read_exported
from samples import PUBLISH, authority, chain, edition, on_child, update

LONG_CHAIN = 40
# By how many seconds krillc's clock is ahead.
AHEAD = 600


def wait_until(moment):
    """Waits until an edition's moment has begun: before it relying parties see nothing of it."""
    while time.time() < moment + 1:
        time.sleep(0.05)


def look_at_all(exported, server, folder, ways=("offline", "RRDP")):
    """Each relying party's name and way, and what it finds."""
    server.asked = []
    for party in parties.PARTIES:
        for way in ways:
            look = parties.look_offline if way == "offline" else parties.look_online
            yield f"{party.name} {way}", look(party, exported, os.path.join(folder, f"{party.package}-{way}"))


def tell(who, text, found):
    print(f"  {who}: {text}", flush=True)
    for line in found.complaints[:3]:
        print(f"    {line}")


def depths(krillc, server, folder):
    """How many authorities of a long chain each follows: each has an origin of its own."""
    sample = chain(LONG_CHAIN)
    program = Program(krillc, os.path.join(folder, "krill"), 1)
    try:
        reply = [program.ask(line) for line in sample.editions[0].lines][-1]
        server.folder = program.repository
        exported = read_exported(program.repository)
        wait_until(reply["moment"])
        for who, found in look_at_all(exported, server, folder):
            followed = sorted(asn for _, _, asn in found.payloads)
            whole = followed == [*range(1, len(followed) + 1)]
            tell(who, f"{len(followed)} of {LONG_CHAIN}, {'the first ones' if whole else followed}", found)
        program.close()
    finally:
        program.kill()


def clocks(krillc, server, folder):
    """What each finds of an edition whose moment is still to come, with the one before in its folder."""
    program = Program(krillc, os.path.join(folder, "krill"), 1, is_late=True)
    try:
        look(published(program, server, first_edition()), server, folder, 1, "the first edition")
        program.set_late(-AHEAD)
        reply = [program.ask(line) for line in next_edition(1)][-1]
        exported = read_exported(program.repository)
        for who, found in look_at_all(exported, server, folder):
            ahead = reply["moment"] - time.time()
            tell(who, f"{len(found.payloads)} of 2 payloads, {ahead:.0f} seconds before the moment", found)
        program.close()
    finally:
        program.kill()


def first_edition():
    return edition([*authority("ta", "isp", ipv4="10.0.0.0/8"), update("isp", ["10.0.0.0/16 => 1"])], []).lines


def next_edition(number):
    return [update("isp", [f"10.{number}.0.0/16 => 1"]), PUBLISH]


def published(program, server, lines):
    """What is exported behind these lines, of which the last one publishes."""
    wait_until(int(time.time()))
    reply = [program.ask(line) for line in lines][-1]
    server.folder = program.repository
    wait_until(reply["moment"])
    return read_exported(program.repository)


def look(exported, server, folder, origins, what):
    for who, found in look_at_all(exported, server, folder):
        tell(who, f"{len(found.payloads)} of {origins} payloads in {what}", found)


def losses(krillc, server, folder):
    """What each finds of a store that has lost its editions, whose anchor has a new key, by the locator of the one before."""
    program = Program(krillc, os.path.join(folder, "krill"), 1)
    try:
        first = published(program, server, first_edition())
        look(first, server, folder, 1, "the first edition")
        program.close()
        os.remove(os.path.join(program.data, "press"))
        program.start()
        lost = published(program, server, [PUBLISH])
        look(dataclasses.replace(lost, locator=first.locator), server, folder, 1, "the one behind the loss")
        program.close()
    finally:
        program.kill()


# An update that changes nothing: it makes an edition.
EMPTY = [update("ta"), PUBLISH]
# The authority below the anchor loses its keys, and gets new ones.
ANEW = [[on_child("suspend", "ta", "isp"), PUBLISH], [on_child("unsuspend", "ta", "isp"), PUBLISH]]
# What is done behind the restore of a copy of serial 1, where serial 3 was handed out: the lines of each edition, and whether it
# is handed out too. isp's manifest had the number 3 then.
RESTORED = {
    "as it comes": [(next_edition(number), True) for number in (11, 12, 13)],
    "the serial above, isp's manifest below": [(next_edition(11), False), (EMPTY, False), (EMPTY, True)],
    "the serial above, isp's manifest has the number that was seen": [*((next_edition(it), False) for it in (11, 12)), (EMPTY, True)],
    "the serial above, isp has a new key": [
        (EMPTY, False), (EMPTY, False), ([update("ta", ["192.0.2.0/24 => 1"]), *next_edition(11)[:1], *ANEW[0]], False), (ANEW[1], True)],
}


def payloads_of(program):
    return {parties.payload_of_origin(it) for it in program.published_origins()}


def compared(found, wanted, seen):
    """Which payloads were found: those that stand now, or those that were seen before the restore."""
    for name, which in (("all that stands", wanted), ("what was seen before the restore", seen)):
        if found == which:
            return name
    return f"{len(found & wanted)} of {len(wanted)} that stand, and {len(found - wanted)} that don't"


def restore(krillc, server, folder, steps):
    """What each finds of a store that is restored from a copy of its first edition, after it has seen a third one."""
    program = Program(krillc, os.path.join(folder, "krill"), 1)
    copy = os.path.join(folder, "copy")
    try:
        published(program, server, first_edition())
        shutil.copytree(program.data, copy, ignore=shutil.ignore_patterns("signer-*", "repo"))
        for number in (1, 2):
            exported = published(program, server, next_edition(number))
        seen = payloads_of(program)
        for who, found in look_at_all(exported, server, folder, ["RRDP"]):
            tell(who, f"serial {exported.serial}: {compared(found.payloads, seen, None)}", found)
        program.close()
        shutil.copytree(copy, program.data, dirs_exist_ok=True)
        program.start()
        for lines, is_handed_out in steps:
            exported = published(program, server, lines)
            wanted = payloads_of(program)
            for who, found in look_at_all(exported, server, folder, ["RRDP"] if is_handed_out else []):
                tell(who, f"serial {exported.serial} behind the restore: {compared(found.payloads, wanted, seen)}", found)
        program.close()
    finally:
        program.kill()


def plays():
    """Each play's name, and what it does."""
    yield f"a chain of {LONG_CHAIN} authorities", depths
    yield "an edition whose moment is still to come", clocks
    yield "a store that has lost its editions, by the locator from before", losses
    for name, steps in RESTORED.items():
        yield f"a store that was restored from an older copy: {name}", functools.partial(restore, steps=steps)


def try_limits(krillc, server, folder, chosen):
    """Those whose names have one of the words, or all."""
    for number, (name, play) in enumerate(plays()):
        if not chosen or any(word in name for word in chosen):
            print(name, flush=True)
            play(krillc, server, os.path.join(folder, str(number)))
