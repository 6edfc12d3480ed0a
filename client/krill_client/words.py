"""The words of the command line, and which command they come to."""
import argparse
import os
import shutil
import sys

from . import commands
from .settings import settings
from .store import DONE, USAGE, Store, StoreFault

EPILOG = """The words are those of Krill's own command line where they exist there. statuses:
    0  accepted, shown or published, or there was nothing to publish
    1  refused: standard error has the refusal's name and what to do
    2  the words or a file aren't as they should be; nothing was sent
    3  the store can't be opened, or there is none
    4  a device failed, or another krillc runs over the store
    5  the session's bytes are spent
    6  out of memory
"""


class Words(argparse.ArgumentParser):
    """A parser whose subcommands stand in `below`, for completion."""

    below: dict


def parser(found=None):
    found = settings() if found is None else found
    top = Words(prog="krill", description="Asks and commands krillc, the RPKI certificate authority daemon.", epilog=EPILOG,
                formatter_class=argparse.RawDescriptionHelpFormatter, allow_abbrev=False)
    top.add_argument("--store", metavar="FOLDER", default=found.get("KRILL_STORE", "."),
                     help="where krillc is started: the folder that has krill-data (KRILL_STORE, else the working directory)")
    top.add_argument("--krillc", metavar="PROGRAM", default=found.get("KRILL_PROGRAM") or shutil.which("krillc") or "krillc",
                     help="the daemon's program (KRILL_PROGRAM, else krillc of the PATH)")
    top.add_argument("--format", choices=["text", "json"], default="text", help="tables, or replies as JSON")
    words = group(top, "COMMAND")
    leaf(words, "init", commands.init, "make an empty store where there is none")
    leaf(words, "add", commands.add, "add an authority", ca, signer)
    leaf(words, "delete", commands.delete, "delete an authority", ca)
    leaf(words, "list", commands.list_all, "list the authorities")
    leaf(words, "show", commands.show, "show an authority: its parent, children and certified resources", ca)
    leaf(words, "history", commands.history, "list an authority's accepted commands", history_words, ca)
    add_children(group(words.add_parser("children", help="the children of an authority"), "ACTION"))
    parents = group(words.add_parser("parents", help="the parent of an authority"), "ACTION")
    leaf(parents, "add", commands.parents_add, "give an authority its parent", ca, option("--parent", "its parent's name"))
    add_roas(group(words.add_parser("roas", help="the route origins of an authority"), "ACTION"))
    keyroll = group(words.add_parser("keyroll", help="the replacement of an authority's key"), "ACTION")
    leaf(keyroll, "init", commands.keyroll_init, "begin: the next edition makes a new key", ca)
    leaf(keyroll, "activate", commands.keyroll_activate, "let the new key take over, a day after it was made or later", ca)
    leaf(words, "publish", commands.publish, "publish what was accepted")
    leaf(words, "audit", commands.audit, "audit the last edition as relying parties do, and export it again")
    leaf(words, "serial", commands.serial, "print the serial of the last edition")
    leaf(words, "watch", commands.watch, "show authorities, origins and the edition as they change", *watch_options())
    leaf(words, "status", commands.status, "tell the edition's age, when it is due and ends, and how full the journals are", prometheus)
    leaf(words, "points", commands.list_points, "list the exported manifests, with their numbers and when they end", not_above)
    leaf(words, "completion", commands.completion, "print the completion of these words for bash")
    return top


def add_children(children):
    child = option("--child", "the child's name")
    leaf(children, "add", commands.children_add, "list a child with its resources", ca, child, resources)
    leaf(children, "update", commands.children_update, "give a child other resources", ca, child, resources)
    leaf(children, "remove", commands.children_remove, "take a child from the list", ca, child)
    leaf(children, "suspend", commands.children_suspend, "suspend a child", ca, child)
    leaf(children, "unsuspend", commands.children_unsuspend, "take a suspended child in again", ca, child)


def add_roas(roas):
    leaf(roas, "list", commands.roas_list, "list the origins with their states", ca)
    leaf(roas, "update", commands.roas_update, "add and remove origins in one command", ca, changes)
    leaf(roas, "import", commands.roas_import, "take over a list of origins, JSON or CSV", ca, imported)
    leaf(roas, "export", commands.roas_export, "print the origins as a list", ca, exported)


def group(of, metavar):
    return of.add_subparsers(metavar=metavar, required=True, parser_class=Words)


def leaf(of, name, handler, text, *options):
    made = of.add_parser(name, help=text, description=text[:1].upper() + text[1:] + ".", allow_abbrev=False)
    for add_to in options:
        add_to(made)
    made.set_defaults(handler=handler)


def option(name, text):
    return lambda made: made.add_argument(name, required=True, metavar="NAME", help=text)


ca = option("--ca", "the authority's name; the anchor's is ta")


def signer(made):
    made.add_argument("--signer", type=int, default=0, metavar="N", help="the number of its signer, 0 if left out")


def history_words(made):
    made.add_argument("what", nargs="?", choices=["commands"], help="may be left out")


def resources(made):
    for name, what in (("asn", "AS numbers, as AS64496-AS64511,AS65536"), ("ipv4", "IPv4, as 192.0.2.0/24"), ("ipv6", "IPv6")):
        made.add_argument(f"--{name}", default="", metavar="SET", help=what)


def changes(made):
    made.add_argument("--add", action="append", default=[], metavar="ORIGIN", help="as '192.0.2.0/24-26 => 64496'")
    made.add_argument("--remove", action="append", default=[], metavar="ORIGIN", help="an origin that is configured")


def imported(made):
    made.add_argument("file", metavar="FILE", help="JSON, or lines of prefix, length, AS number; - for standard input")
    made.add_argument("--replace", action="store_true", help="remove what the file doesn't have, too")
    made.add_argument("--dry-run", action="store_true", help="show what would change, and send nothing")
    made.add_argument("--yes", action="store_true", help="send it without asking")


def exported(made):
    made.add_argument("--as", dest="form", choices=["json", "csv"], default="json", help="the list's form")


def watch_options():
    return (lambda made: made.add_argument("--interval", type=float, default=5, metavar="SECONDS", help="5 if left out"),
            lambda made: made.add_argument("--looks", type=int, metavar="N", help="end after so many; else by Ctrl-C"))


def prometheus(made):
    made.add_argument("--prometheus", action="store_true", help="as gauges for a node exporter's text file")


def not_above(made):
    made.add_argument("--not-above", metavar="REPO", help="only those with no greater number than in REPO, an export from before")


def main(words=None):
    found = settings()
    asked = parser(found).parse_args(words)
    try:
        return asked.handler(Store(asked.store, asked.krillc, found), asked)
    except StoreFault as fault:
        print(f"krill: {fault}", file=sys.stderr)
        return fault.status
    except commands.Unusable as fault:
        print(f"krill: {fault}", file=sys.stderr)
        return USAGE
    except BrokenPipeError:
        # whoever read the output has read enough
        sys.stdout = open(os.devnull, "w", encoding="utf-8")
        return DONE
    except KeyboardInterrupt:
        return DONE
