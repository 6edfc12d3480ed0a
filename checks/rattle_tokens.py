"""The words and signs of a source, as groups within groups, and the names in its types."""
import re

OPEN, CLOSE = {"(": ")", "[": "]", "{": "}"}, {")", "]", "}"}
TOKEN = re.compile(
    r"""(?P<space>\s+|//[^\n]*|/\*.*?\*/)
    |(?P<text>b?r(?P<hashes>\#*)".*?"(?P=hashes)|b?"(?:\\.|[^"\\])*"|b?'(?:\\.[^']*|[^'\\])')
    |(?P<word>'?\w+)
    |(?P<sign>::|=>|->|==|!=|<=|>=|&&|\|\||\.\.=|\.\.|.)""",
    re.VERBOSE | re.DOTALL,
)


class Token:
    """A word, a sign or a text, or a group with what stands between its brackets. It is apart behind a space."""

    def __init__(self, text, line, is_apart=False, inside=None):
        self.text, self.line, self.is_apart, self.inside = text, line, is_apart, inside

    def is_word(self):
        return self.inside is None and re.fullmatch(r"\w+", self.text) is not None


def tokens_of(text):
    stack, line, is_apart = [Token("", 1, inside=[])], 1, False
    for found in TOKEN.finditer(text):
        said = found[0]
        if not found["space"]:
            if said in OPEN:
                group = Token(said, line, is_apart, [])
                stack[-1].inside.append(group)
                stack.append(group)
            elif said in CLOSE:
                if len(stack) == 1 or OPEN[stack[-1].text] != said:
                    raise ValueError(f"line {line}: {said} closes nothing")
                stack.pop()
            else:
                stack[-1].inside.append(Token(said, line, is_apart))
        is_apart = bool(found["space"])
        line += said.count("\n")
    if len(stack) > 1:
        raise ValueError(f"line {stack[-1].line}: {stack[-1].text} isn't closed")
    return stack[0].inside


def spelled(tokens):
    """The tokens in one line, however they are broken in the source, without what stands in blocks."""
    out = ""
    for at, it in enumerate(tokens):
        if it.inside is None:
            said = it.text
        elif it.text == "{":
            said = "{..}" if it.inside else "{}"
        else:
            said = it.text + spelled(it.inside).removesuffix(",") + OPEN[it.text]
        is_apart = at and it.is_apart and said[0] not in ".,;?" or said in ("..", "..=") and it.is_apart and at
        out += " " * bool(is_apart) + said
    return out


def split(tokens, *signs):
    """The parts between these signs, at this level."""
    parts = [[]]
    for it in tokens:
        if it.inside is None and it.text in signs:
            parts.append([])
        else:
            parts[-1].append(it)
    return parts


def words_in(tokens):
    for it in tokens:
        if it.inside is None:
            yield it.text
        else:
            yield from words_in(it.inside)


def alternatives(pattern):
    """Each of the pattern's alternatives, at whichever depth."""
    flat, found = [*words_in(pattern)], [[]]
    for word in flat:
        if word == "|":
            found.append([])
        else:
            found[-1].append(word)
    return [it for it in found if it]


def parts_of_type(tokens):
    """The words of a type outside its parameters, and its parameters."""
    depth, head, parts = 0, [], [[]]
    for it in tokens:
        if it.inside is None and it.text == "<":
            depth += 1
            if depth == 1:
                continue
        if it.inside is None and it.text == ">":
            depth -= 1
            if depth == 0:
                break
        if depth == 0:
            head.append(it.text)
        elif depth == 1 and it.inside is None and it.text == ",":
            parts.append([])
        else:
            parts[-1].append(it)
    return head, [it for it in parts if it]


def type_name(tokens):
    """The name of a type behind references, as Vec of &mut Vec<u8>."""
    words = [it for it in parts_of_type(tokens)[0] if re.fullmatch(r"\w+", it) and it not in ("mut", "dyn", "impl")]
    return words[-1] if words else ""


def error_type(tokens):
    """The name of a result's error type, or None where the type is no result."""
    head, parts = parts_of_type(tokens)
    return type_name(parts[1]) if head[-1:] == ["Result"] and len(parts) == 2 else None


def behind(tokens, at, sign):
    """The place behind the next such sign or group."""
    return next((i + 1 for i in range(at, len(tokens)) if tokens[i].text == sign), len(tokens))


def split_params(tokens):
    """A function's parameters: commas within a type's parameters separate none."""
    depth, parts = 0, [[]]
    for it in tokens:
        depth += (it.text == "<") - (it.text == ">")
        if it.text == "," and depth == 0:
            parts.append([])
        else:
            parts[-1].append(it)
    return parts
