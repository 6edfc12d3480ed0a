"""memory.py: want of memory is answered only where memory was wanting.

No clause can refuse a body that answers want of memory, since that may come at any time. So this reads the sources of
all libraries and of krillc and looks at each place where code gives it as a value: `AllocError`, or a variant of an
error for it. It may stand only behind a call that has just failed for want of memory:

- in an arm, an `if let` or a `let .. else` whose pattern names it in each alternative, or takes any error of a call
  that has no other one, and in what such a call's `is_err()` guards;
- in a closure of `map_err` and its like behind such a call;
- in `From` of an allocation's error.

Each other place is a line of checks/memory.txt: the function, the place, its file, and why it never comes or which
bound it keeps, with tabs between them. Where the function is written with (), its calls are places too, since its
answer is want of memory. `struct NAME` is an error that says nothing else. With --paths the files are set right.

memory.py --selftest looks whether it finds what it has to, and nothing else."""
import collections, glob, os, re, sys

sys.dont_write_bytecode = True
from rattle_tokens import alternatives, behind, error_type, parts_of_type, split, split_params, spelled, tokens_of
from rattle_tokens import type_name, words_in

# An allocation's error, and the variants of errors that stand for it. A variant with ERROR_TEXT is another one.
FAILED = {"AllocError", "AllocFailed"}
NAMES = {"Memory", "OutOfMemory"}
ERROR_TEXT = '"out of memory"'
# Calls of the kit whose only error is an allocation's, by the type that has them.
KIT = {
    "Vec": {"with_capacity", "push", "extend_from_slice", "resize", "reserve", "insert", "to_vec"},
    "String": {"with_capacity", "from_str", "push_str", "reserve"},
    "Arc": {"new", "try_clone"},
    "Box": {"new"},
    "BTreeMap": {"insert"},
    "Iterator": {"collect"},
    "Writer": {"append"},
}
KIT_MACROS = {"vec"}
# Clauses of contracts, which may stand before a block.
CLAUSES = ("requires", "ensures")
# What a closure is handed by these is the error of the call before.
ON_ERROR = {"map_err", "or_else", "unwrap_or_else"}


class Known:
    """What all sources declare: the names for want of memory, the errors of functions and the types of fields."""

    def __init__(self, types=(), givers=()):
        # errors that say nothing but that memory was wanting, and functions whose answer is that without a cause
        self.failed, self.givers = FAILED | {*types}, {*givers}
        # errors that have such a one as a field
        self.carriers = set()
        self.names, self.errors, self.fields = {*NAMES}, collections.defaultdict(set), {}
        self.declared, self.values, self.aliases, self.structs = set(), {}, {}, {}

    def is_want(self, word):
        return word in self.failed or word in self.names

    def is_told(self, word):
        """Whether a pattern that has this name tells of want of memory."""
        return self.is_want(word) or word in self.carriers

    def add_enum(self, inside):
        for part in split(inside, ","):
            for at, it in enumerate(part[:-1]):
                if it.text == "#" and ERROR_TEXT in words_in([part[at + 1]]):
                    rest = [one for one in part[at + 2 :] if one.is_word()]
                    self.names |= {one.text for one in rest[:1]}

    def add_fields(self, owner, inside):
        for part in split(inside, ","):
            at = next((i for i, it in enumerate(part) if it.text == ":" and it.inside is None), 0)
            if at and part[at - 1].is_word():
                name = self.fields[owner, part[at - 1].text] = type_name(part[at + 1 :])
                self.carriers |= {owner} if name in self.failed else set()

    def fails_for_memory(self, owner, name):
        """Whether a call's only error is an allocation's. A function's owner is '', and one that isn't known None."""
        found = {error for (of, called), errors in self.errors.items() if called == name and owner in (None, of)
                 for error in errors}
        is_of_kit = name in KIT[owner] if owner in KIT else owner is None and any(name in it for it in KIT.values())
        return (is_of_kit or owner is not None and bool(found)) and found <= self.failed | self.carriers


class Place:
    def __init__(self, function, text, path, line):
        self.function, self.text, self.path, self.line = function, text, path, line


class Reader:
    """Reads the items of a file: first, with no places, what they declare, and then the places."""

    def __init__(self, known, path, places=None):
        self.known, self.path, self.places = known, path, places
        self.owner, self.source, self.function, self.types = "", "", "", {}

    def items(self, tokens):
        at = 0
        while at < len(tokens):
            word = tokens[at].text
            end = self.end_of(tokens, at)
            if word in ("impl", "trait", "mod"):
                self.block(word, tokens[at:end])
            elif word == "fn" and at + 1 < len(tokens) and tokens[at + 1].is_word():
                end = self.a_function(tokens, at)
            elif word == "enum":
                self.known.add_enum(tokens[end - 1].inside or [])
            elif word == "struct":
                group = next((it for it in tokens[at:end] if it.text == "{"), None)
                self.known.structs[tokens[at + 1].text] = self.path
                self.known.add_fields(tokens[at + 1].text, group.inside if group else [])
            elif word == "use":
                self.an_import(tokens[at:end])
            elif word in ("const", "static") and tokens[at + 1].text != "fn":
                self.function = tokens[at + 1].text
                self.walk(tokens[behind(tokens, at, "=") : end], False)
            elif word == "type" and tokens[at + 1].is_word():
                begin = next((i for i in range(at, end) if tokens[i].text == "="), end)
                self.known.aliases[tokens[at + 1].text] = type_name(tokens[begin + 1 : end - 1])
            elif word != "ghost":
                end = at + 1
            at = end

    def end_of(self, tokens, at):
        """Where an item ends: behind its block, or its semicolon."""
        ghost = tokens[at].text in ("ghost", "use", "const", "static", "type")
        for i in range(at, len(tokens)):
            if tokens[i].text == ";" or tokens[i].text == "{" and not ghost:
                return i + 1
        return len(tokens)

    def block(self, word, tokens):
        head, group = tokens[:-1], tokens[-1]
        if group.inside is None:
            return
        depth, outside = 0, []
        for it in head[1:]:
            depth += (it.text == "<") - (it.text == ">")
            if depth == 0 and it.text != ">":
                outside.append(it.text)
        outside = outside[: outside.index("where")] if "where" in outside else outside
        behind = outside[outside.index("for") + 1 :] if "for" in outside else outside
        before, self.owner = self.owner, next((it for it in reversed(behind) if re.fullmatch(r"\w+", it)), "")
        source = next((i for i, it in enumerate(head) if it.text == "From"), None)
        was, self.source = self.source, ""
        if word == "impl" and source is not None and "for" in outside:
            self.source = type_name(parts_of_type(head[source:])[1][0])
        if word == "mod":
            self.owner = before
        self.items(group.inside)
        self.owner, self.source = before, was

    def an_import(self, tokens):
        flat = [*words_in(tokens)]
        for word, following in zip(flat, flat[1:]):
            if self.known.is_want(word) and following == "as" and self.places is not None:
                self.places.append(Place("use", spelled(tokens), self.path, tokens[0].line))

    def a_function(self, tokens, at):
        name, i = tokens[at + 1].text, at + 2
        while i < len(tokens) and tokens[i].text != "(":
            i += 1
        params, i = tokens[i].inside, i + 1
        begin = i
        while i < len(tokens) and tokens[i].text not in ("{", ";", "where", *CLAUSES):
            i += 1
        error = error_type(tokens[begin + 1 : i]) if tokens[begin].text == "->" else None
        if self.places is None:
            self.known.declared.add(name)
            if error:
                self.known.errors[self.owner, name].add(error)
            kind = parts_of_type(tokens[begin + 1 : i])[1][0] if error else tokens[begin + 1 : i]
            self.known.values[self.owner, name] = type_name(kind)
        while i < len(tokens) and tokens[i].text not in ("{", ";"):
            i = behind(tokens, i, "{") if tokens[i].text in CLAUSES else i + 1
        if i < len(tokens) and tokens[i].text == "{" and self.places is not None:
            before = self.function, self.types
            self.function, self.types = name, {}
            for param in split_params(params):
                self.a_type(param)
            self.walk(tokens[i].inside, self.source in self.known.failed, "")
            self.function, self.types = before
        elif i < len(tokens) and self.source in self.known.failed:
            # (the variant that such an error comes to)
            flat = [*words_in(tokens[i].inside or [])]
            self.known.names |= {word for link, word in zip(flat, flat[1:]) if link == "::" and word[0].isupper()}
        return i + 1

    def a_type(self, tokens):
        """Notes the type of `name: Type`."""
        at = next((i for i, it in enumerate(tokens) if it.text == ":"), None)
        if at and tokens[at - 1].is_word():
            name, kind = tokens[at - 1].text, tokens[at + 1 :]
            self.types[name] = type_name(kind), error_type(kind)

    # What follows reads code.

    def walk(self, tokens, allowed, header=""):
        """Looks for places among the tokens of a block or of an expression."""
        at, begin = 0, 0
        while at < len(tokens):
            it, word = tokens[at], tokens[at].text
            if word in (";", ","):
                begin = at + 1
            if word == "ghost" and it.inside is None:
                at = behind(tokens, at, ";")
            elif word == "#" and at + 1 < len(tokens) and tokens[at + 1].text == "[":
                at += 2
            elif word in CLAUSES:
                at = behind(tokens, at, "{")
            elif word == "use":
                end = behind(tokens, at, ";")
                self.an_import(tokens[at:end])
                at = end
            elif word == "fn" and at + 1 < len(tokens) and tokens[at + 1].is_word():
                at = self.a_function(tokens, at)
            elif word == "let":
                at = self.a_let(tokens, at, allowed, header)
            elif word in ("if", "while"):
                at = self.an_if(tokens, at, allowed, header)
            elif word == "match":
                at = self.a_match(tokens, at, allowed, header)
            elif word == "for":
                at = next((i for i in range(at, len(tokens)) if tokens[i].text == "in"), at) + 1
            elif word in ("|", "||") and self.opens_closure(tokens, at):
                at = self.a_closure(tokens, at, allowed, header)
            elif it.inside is not None:
                self.a_group(tokens, at, allowed, header)
                at += 1
            else:
                gives = word in self.known.givers and at + 1 < len(tokens) and tokens[at + 1].text == "("
                if (gives or self.known.is_want(word) and self.is_value(tokens, at)) and not allowed:
                    self.add(tokens, begin, at, header)
                at += 1

    def is_value(self, tokens, at):
        """Whether the name stands for a value, and not in a type or a comparison."""
        begin = at
        while begin >= 2 and tokens[begin - 1].text == "::" and tokens[begin - 2].is_word():
            begin -= 2
        before = tokens[begin - 1].text if begin else ""
        after = tokens[at + 1].text if at + 1 < len(tokens) else ""
        if after == "::" or before in ("==", "!=") or after in ("==", "!="):
            return False
        return not (after == ">" or before == "<" or before == "->" or before == "as")

    def add(self, tokens, begin, at, header):
        end = next((i for i in range(at, len(tokens)) if tokens[i].text in (";", ",")), len(tokens))
        # (a block before it is another statement)
        begin = max([begin, *[i + 1 for i in range(begin, at) if tokens[i].text == "{"]])
        self.tell(header, spelled(tokens[begin:end]), tokens[at].line)

    def tell(self, header, said, line):
        self.places.append(Place(self.function, f"{header}: {said}" if header else said, self.path, line))

    def places_within(self, tokens, allowed):
        """The places of an expression, which are told with what it stands in."""
        inner = Reader(self.known, self.path, [])
        inner.owner, inner.source, inner.function, inner.types = self.owner, self.source, self.function, self.types
        inner.walk(tokens, allowed)
        return inner.places

    def a_group(self, tokens, at, allowed, header):
        group, before = tokens[at], tokens[at - 1].text if at else ""
        if before == "!" and at >= 2 and tokens[at - 2].text == "matches":
            self.walk(split(group.inside, ",")[0], allowed, header)
            return
        if group.text != "(" or not any(self.known.is_want(it) or it in self.known.givers for it in words_in([group])):
            self.walk(group.inside, allowed, header)
            return
        # a call's arguments are told with the call
        begin = at
        while begin and tokens[begin - 1].text not in (";", ",", "=", "return", "{", "=>"):
            begin -= 1
        if before in ON_ERROR and any(it.text in ("|", "||") for it in group.inside):
            allowed = allowed or self.fails_for_memory(tokens[begin : at - 2])
        end = next((i for i in range(at, len(tokens)) if tokens[i].text in (";", ",")), len(tokens))
        said = spelled(tokens[begin:end])
        for it in self.places_within(group.inside, allowed):
            self.tell(header, said if it.text in said else f"{said}: {it.text}", it.line)

    def opens_closure(self, tokens, at):
        return at == 0 or tokens[at - 1].inside is None and tokens[at - 1].text in (",", "=", "move", "return", "=>")

    def a_closure(self, tokens, at, allowed, header):
        if tokens[at].text == "||":
            params, at = [], at + 1
        else:
            end = behind(tokens, at + 1, "|")
            params, at = tokens[at + 1 : end - 1], end
        if params and self.names_want(params):
            allowed = True
        end = next((i for i in range(at, len(tokens)) if tokens[i].text in (",", ";")), len(tokens))
        self.walk(tokens[at:end], allowed, header)
        return end

    def names_want(self, pattern):
        """Whether each alternative of a pattern names want of memory."""
        found = alternatives(pattern)
        return bool(found) and all(any(self.known.is_told(word) for word in words) for words in found)

    def takes_any_error(self, pattern):
        words = [*words_in(pattern)]
        return len(words) in (2, 3) and words[0] == "Err" and re.fullmatch(r"\w+", words[-1]) is not None

    def takes_any_value(self, pattern):
        words = [*words_in(pattern)]
        return words[:1] == ["Ok"] and all(re.fullmatch(r"[a-z_]\w*|,", it) for it in words[1:])

    def a_let(self, tokens, at, allowed, header):
        begin = next((i for i in range(at, len(tokens)) if tokens[i].text in ("=", ";")), len(tokens))
        self.a_let_type(tokens[at + 1 : begin], tokens[begin + 1 :])
        if begin == len(tokens) or tokens[begin].text == ";":
            return begin + 1
        end = next((i for i in range(begin, len(tokens)) if tokens[i].text == ";"), len(tokens))
        way_out = next((i for i in range(begin, end) if tokens[i].text == "else" and tokens[i - 1].text != "{"), None)
        pattern, code = tokens[at + 1 : begin], tokens[begin + 1 : way_out or end]
        words = spelled(tokens[at : begin + 1])
        for it in self.places_within(code, allowed):
            self.tell(header, it.text if ": " in it.text else f"{words} {it.text}", it.line)
        if way_out is not None and way_out + 1 < len(tokens):
            is_failed = self.takes_any_value(pattern) and self.fails_for_memory(code)
            head = spelled(tokens[at:way_out]) + " else"
            self.walk(tokens[way_out + 1].inside or [], allowed or is_failed, head)
        return end

    def a_let_type(self, pattern, code):
        at = next((i for i, it in enumerate(pattern) if it.text == ":"), None)
        if at is not None:
            self.a_type(pattern)
            return
        names = [it.text for it in pattern if it.is_word() and it.text != "mut"]
        if len(names) != 1 or not code:
            return
        end = next((i for i, it in enumerate(code) if it.text in ("?", "{", ";")), len(code))
        owner, name = self.called(code[1 if code[0].text == "match" else 0 : end]) or ("", "")
        found = self.known.values.get((owner, name)) or (owner if owner in KIT else None)
        self.types[names[0]] = self.owner if found == "Self" else found or "", None

    def an_if(self, tokens, at, allowed, header):
        body = next((i for i in range(at, len(tokens)) if tokens[i].text == "{"), None)
        if body is None:
            return len(tokens)
        told = tokens[at + 1 : body]
        whole = all(self.tells_want(it) for it in split(told, "||")) if told else False
        self.walk_condition(told, allowed, header)
        self.walk(tokens[body].inside, allowed or whole, spelled(tokens[at:body]))
        at = body + 1
        if at < len(tokens) and tokens[at].text == "else":
            if at + 1 < len(tokens) and tokens[at + 1].text == "if":
                return self.an_if(tokens, at + 1, allowed, header)
            if at + 1 < len(tokens) and tokens[at + 1].inside is not None:
                ended = self.ends_well(told)
                otherwise = spelled(tokens[body - len(told) - 1 : body]) + " else"
                self.walk(tokens[at + 1].inside, allowed or ended, otherwise)
                return at + 2
        return at

    def walk_condition(self, told, allowed, header):
        for part in split(told, "&&", "||"):
            if part[:1] and part[0].text == "let":
                at = next((i for i, it in enumerate(part) if it.text == "="), len(part))
                part = part[at + 1 :]
            self.walk(part, allowed, header)

    def tells_want(self, condition):
        """Whether a condition says that memory was wanting: one of its parts does."""
        return any(self.part_tells_want(part) for part in split(condition, "&&"))

    def part_tells_want(self, part):
        if part[:1] and part[0].text == "let":
            at = next((i for i, it in enumerate(part) if it.text == "="), len(part))
            pattern, code = part[1:at], part[at + 1 :]
            return self.names_want(pattern) or self.takes_any_error(pattern) and self.fails_for_memory(code)
        words = [*words_in(part)]
        if "==" in words and self.known.is_want(words[-1]) and "!" not in words[:1]:
            return True
        if words[-2:] == [".", "is_memory"] and words[0] != "!" and "is_memory" not in self.known.declared:
            return True
        if words[-2:] == [".", "is_err"] and words[0] != "!":
            return self.fails_for_memory(part[:-3])
        if words[:2] == ["matches", "!"]:
            return self.names_want(split(part[2].inside, ",")[-1])
        return False

    def ends_well(self, condition):
        """Whether the other case is a call's want of memory."""
        words = [*words_in(condition)]
        if words[:2] == ["let", "Ok"]:
            at = next((i for i, it in enumerate(condition) if it.text == "="), len(condition))
            return self.takes_any_value(condition[1:at]) and self.fails_for_memory(condition[at + 1 :])
        return words[-2:] == [".", "is_ok"] and self.fails_for_memory(condition[:-3])

    def a_match(self, tokens, at, allowed, header):
        body = next((i for i in range(at, len(tokens)) if tokens[i].text == "{"), None)
        if body is None:
            return len(tokens)
        told = tokens[at + 1 : body]
        self.walk(told, allowed, header)
        arms, i = tokens[body].inside, 0
        for_memory = self.fails_for_memory(told)
        while i < len(arms):
            if arms[i].text == "#" or arms[i].text == ",":
                i += 2 if arms[i].text == "#" else 1
                continue
            arrow = next((j for j in range(i, len(arms)) if arms[j].text == "=>"), None)
            if arrow is None:
                break
            pattern, guard = arms[i:arrow], []
            cut = next((j for j, it in enumerate(pattern) if it.text == "if"), None)
            if cut is not None:
                pattern, guard = pattern[:cut], pattern[cut + 1 :]
            is_failed = self.names_want(pattern) or self.takes_any_error(pattern) and for_memory
            is_failed = is_failed or bool(guard) and all(self.tells_want(it) for it in split(guard, "||"))
            head = f"{spelled(tokens[at:body])}, {spelled(arms[i:arrow])}"
            if arms[arrow + 1].text == "{":
                self.walk(arms[arrow + 1].inside, allowed or is_failed, head)
                i = arrow + 2
            else:
                end = next((j for j in range(arrow, len(arms)) if arms[j].text == ","), len(arms))
                self.walk(arms[arrow + 1 : end], allowed or is_failed, head)
                i = end + 1
        return body + 1

    def fails_for_memory(self, code):
        """Whether the expression is a call, or has a type, whose only error is an allocation's."""
        if len(code) == 1 and code[0].is_word():
            return self.types.get(code[0].text, ("", None))[1] in self.known.failed | self.known.carriers
        if len(code) == 3 and code[1].text == "!" and code[0].text in KIT_MACROS:
            return True
        return self.known.fails_for_memory(*(self.called(code) or ("", "")))

    def called(self, code):
        """The owner and the name of the function that an expression calls, or None where it is no call."""
        if not code or code[-1].text != "(":
            return None
        at = len(code) - 2
        if at >= 0 and code[at].text == ">":
            while at >= 0 and code[at].text != "::":
                at -= 1
            at -= 1
        if at < 0 or not code[at].is_word():
            return None
        name, link = code[at].text, code[at - 1].text if at else ""
        if link == ".":
            return self.receiver(code[: at - 1]), name
        if link != "::":
            return "", name
        owner = code[at - 2].text
        return self.owner if owner == "Self" else owner if owner[0].isupper() else "", name

    def receiver(self, code):
        """The type of what a method is called on, or None."""
        words = [it.text for it in code if it.inside is None]
        if len(words) != len(code) or not words:
            return None
        found = self.owner if words[0] == "self" else self.types.get(words[0], (None, None))[0]
        for link, field in zip(words[1::2], words[2::2]):
            found = self.known.fields.get((found, field)) if link == "." else None
        return self.known.aliases.get(found, found) or None


def read(path):
    with open(path, encoding="utf-8") as file:
        return file.read()


def sources(top):
    """The files of the libraries and of krillc. Other programs are tests and measurements."""
    for crate in sorted(glob.glob(os.path.join(top, "crates", "*"))):
        if os.path.basename(crate) == "krillc" or not os.path.exists(os.path.join(crate, "src", "main.rt")):
            yield from sorted(glob.glob(os.path.join(crate, "src", "**", "*.rt"), recursive=True))


def tree_of(path, text):
    try:
        return tokens_of(text)
    except ValueError as error:
        sys.exit(f"memory: {path}: {error}")


def places_in(texts, lines=()):
    """The places of these texts, by their paths. Lines of memory.txt may name more that stands for want of memory."""
    structs = [function.split()[1] for function, *_ in lines if function.startswith("struct ")]
    givers = [function.removesuffix("()") for function, *_ in lines if function.endswith("()")]
    known, places = Known(structs, givers), []
    trees = {path: tree_of(path, text) for path, text in texts.items()}
    for _ in range(2):
        # (twice: a struct may be declared behind one that holds it)
        for path, tree in trees.items():
            Reader(known, path).items(tree)
    for path, tree in trees.items():
        Reader(known, path, places).items(tree)
    for name, path in known.structs.items():
        places += [Place(f"struct {name}", f"struct {name}", path, 0)] if name in structs else []
    return places


def listed(path):
    """The lines of memory.txt: a function, a place, its file and why it is there."""
    found = []
    for number, line in enumerate(read(path).split("\n"), 1):
        if line and not line.startswith("#"):
            parts = line.split("\t")
            if len(parts) != 4 or not all(it.strip() for it in parts):
                sys.exit(f"memory: {path}:{number} has no function, place, file and reason with tabs between them")
            found.append(tuple(parts))
    return found


def compared(places, lines):
    """The places that no line lists, the lines whose place is gone, and those whose place is in another file."""
    left, gone, moved = [*places], [], {}
    # (a line takes the place in its own file first)
    for is_same in True, False:
        for line in [*lines] if is_same else [*gone]:
            function, text, path, _ = line
            here = [it for it in left if (it.function, it.text) == (function.removesuffix("()"), text)
                    and (it.path == path or not is_same)]
            if here:
                left.remove(here[0])
            if here and not is_same:
                gone.remove(line)
                moved[line] = here[0].path
            elif not here and is_same:
                gone.append(line)
    return left, gone, moved


def check(top, sets_paths):
    texts = {os.path.relpath(path, top): read(path) for path in sources(top)}
    file = os.path.join(top, "checks", "memory.txt")
    lines = listed(file)
    places = places_in(texts, lines)
    left, gone, moved = compared(places, lines)
    faults = [f"checks/memory.txt lists a place in {path} that isn't there: {function}: {text}"
              for function, text, path, _ in gone]
    faults += [f"{it.path}:{it.line}: {it.function} answers want of memory where none was met: {it.text}"
               for it in left]
    if sets_paths:
        text = read(file)
        for line, path in moved.items():
            text = text.replace("\t".join(line), "\t".join([*line[:2], path, line[3]]))
        with open(file, "w", encoding="utf-8") as out:
            out.write(text)
    else:
        faults += [f"a place that checks/memory.txt lists in {line[2]} is in {path} (memory.py --paths): {line[1]}"
                   for line, path in moved.items()]
    for fault in faults:
        print(f"memory: {fault}", file=sys.stderr)
    if not faults:
        print(f"checks/memory: ok, {len(texts)} files; checks/memory.txt lists {len(lines)} places")
    return 1 if faults else 0


if __name__ == "__main__":
    if sys.argv[1:] == ["--selftest"]:
        import memory_cases

        sys.exit(memory_cases.selftest())
    sys.exit(check(os.path.dirname(os.path.dirname(os.path.abspath(__file__))), sys.argv[1:] == ["--paths"]))
