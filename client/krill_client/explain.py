"""Refusals in words, each with what to do."""

REFUSALS = {
    "Deleted": ("the authority is deleted", "A deleted name stays taken: add an authority of another name."),
    "NameTaken": ("an authority has that name", "Names are never free again, those of deleted authorities neither."),
    "TooManyAuthorities": ("64 authorities are listed, the most that one instance has", "Run a second instance."),
    "NoSuchSigner": ("there is no signer of that number", "Start it before krillc, or leave --signer out."),
    "HasParent": ("the authority has a parent", "An authority has one parent for good."),
    "NoParent": ("the authority has no parent", "'krill parents add' gives it one."),
    "ChildThere": ("the child is listed", "Use 'krill children update' to change its resources."),
    "NoSuchChild": ("no such child is listed", "'krill show' lists the children."),
    "TooManyChildren": ("63 children are listed, the most", "Put a child below another one."),
    "Suspended": ("the child is suspended", "'krill children unsuspend' takes it in again."),
    "NotSuspended": ("the child isn't suspended", ""),
    "OriginThere": ("the origin is configured", "Leave it out, or remove it in the same update."),
    "OriginTwice": ("the origin stands twice in the same list", "Give it once."),
    "NoSuchOrigin": ("the origin isn't configured", "'krill roas list' shows those that are."),
    "TooManyOrigins": ("more than 1,024 origins would be configured", "Spread them over several authorities."),
    "RollGoing": ("a rollover was begun and isn't activated", "'krill keyroll activate' goes on with it."),
    "NoRoll": ("no rollover was begun that isn't activated", "'krill keyroll init' begins one."),
    "NotForAnchor": ("the anchor 'ta' can't be deleted, has no parent, and keeps its key", ""),
    "NoSuchAuthority": ("no authority has that name", "'krill list' shows the names."),
    "Shut": ("a fault of the disk has shut the journal", "Look at the disk, and start krillc again."),
    "JournalFull": ("the journal has no room", "An authority's holds 16 MiB, that of the editions 1 GiB; it can't be made shorter."),
    "DiskFault": ("the disk failed while the record was stored", "Start krillc again: the command or edition is then there or not."),
    "Nothing": ("there is nothing to publish", "What stands is good for more than eight hours."),
    "ClockRange": ("the clock is outside its range", "Set the clock right."),
    "SerialEnd": ("a serial has reached its end", ""),
    "SignerFault": ("a signer failed", "Look at the signer of that number, and publish again."),
    "KeyClash": ("a signer made a key that another authority has", "Look at the signer: keys must never repeat."),
    "OutletFault": ("the edition stands, and its files couldn't be written", "Look at the disk, and publish again."),
    "BadLine": ("krillc found no command in the line", "Is krill older or newer than krillc?"),
    "UnknownCommand": ("krillc doesn't know the command", "Is krill newer than krillc?"),
    "BadField": ("krillc can't take the field", "Names have 1 to 64 letters, digits, '-' and '_'."),
    "Memory": ("no memory", "Give krillc more, and try again."),
}

# Refusals that are good news to whoever publishes by a timer.
GOOD = {"Nothing"}


def refusal(reply):
    """The refusal's name, what it says, and what to do, as one or two lines."""
    name, detail = reply["refused"], reply.get("detail", "")
    words, advice = REFUSALS.get(name, ("refused", ""))
    first = f"{name}: {words}" + (f" ({detail})" if detail else "")
    return f"{first}\n{advice}" if advice else first


def is_good(reply):
    return reply.get("refused") in GOOD
