"""Texts of the form that Snabb's configurations have: statements `word [value] ;` and `word [value] { .. }`."""
import re


class YangError(Exception):
    """A text of another form, or with a statement that is not understood, and the line."""

    def __init__(self, line, text):
        super().__init__(text)
        self.line = line


# how deep statements may be nested: a configuration of Snabb has six levels
MOST_DEEP = 64


class Node:
    __slots__ = ("name", "value", "line", "inside")

    def __init__(self, name, value, line):
        self.name, self.value, self.line, self.inside = name, value, line, []

    def all(self, name):
        return [it for it in self.inside if it.name == name]

    def one(self, name):
        """The statement of this name, None where there is none; one that stands twice is refused."""
        found = self.all(name)
        if len(found) > 1:
            raise YangError(found[1].line, f"{name} stands twice in {self.name}")
        return found[0] if found else None


TOKEN = re.compile(r"""\s+|//[^\n]*|/\*.*?\*/|(?P<mark>[{};])|"(?P<double>(?:[^"\\]|\\.)*)"|'(?P<single>[^']*)'|(?P<word>[^\s{};"']+)""", re.S)


# a softwire of plain leaves, with a port set of plain leaves in it: a configuration has tens of thousands of these
LEAF = r"[\w-]+\s+[^\s{};\"'/]+\s*;"
FLAT = re.compile(rf"softwire\s*\{{((?:\s*(?:{LEAF}|port-set\s*\{{(?:\s*{LEAF})*\s*\}}))*)\s*\}}")
PART = re.compile(r"port-set\s*\{|\}|([\w-]+)\s+[^\s{};]+\s*;")


# how many forms a text may have before its softwires are read as all else is
MOST_FORMS = 64


class Form:
    """The order of the leaves in a plain softwire; most softwires of a configuration have one form, which is quickly matched."""

    def __init__(self, names, pattern):
        # the name of each leaf, those of the port set with its name in front
        self.names, self.pattern = names, re.compile(pattern)

    def groups(self, names):
        """The groups of the pattern that have the leaves of these names; None if the form has other leaves, or one twice."""
        if sorted(self.names) != sorted(names):
            return None
        return [3 + self.names.index(it) for it in names]


class Forms(dict):
    """The forms of a text, by their patterns."""

    def of(self, body):
        """The form of what is inside a plain softwire; None if the text has too many."""
        names, front, parts = [], "", []
        for found in PART.finditer(body):
            if found[1]:
                names.append(front + found[1])
                parts.append(rf"{found[1]}\s+([^\s{{}};\"'/]+)\s*;\s*")
            else:
                front = "" if found[0] == "}" else "port-set "
                parts.append(r"port-set\s*\{\s*" if front else r"\}\s*")
        pattern = r"\s*()softwire\s*\{(\s*" + "".join(parts) + r")\}"
        if pattern not in self and len(self) < MOST_FORMS:
            self[pattern] = Form(names, pattern)
        return self.get(pattern)


class Flat:
    """A softwire of plain leaves: its form and what matched it. Its inside is read only if it is asked for."""

    __slots__ = ("line", "form", "found")
    name, value = "softwire", ""

    def __init__(self, line, form, found):
        self.line, self.form, self.found = line, form, found

    @property
    def inside(self):
        return read(self.found[2], self.line + self.found.string.count("\n", self.found.start(1), self.found.start(2))).inside

    all, one = Node.all, Node.one

def read(text, line=1):
    """The statements of a text, whose first line has this number, below a node without a name."""
    top, forms = Node("", "", 0), Forms()
    open_nodes, words, at = [top], [], 0
    while at < len(text):
        flat = FLAT.match(text, at) if not words else None
        form = forms.of(flat[1]) if flat else None
        if form:
            line, at = _plain(text, at, line, form, open_nodes[-1].inside)
            continue
        found = TOKEN.match(text, at)
        if not found:
            raise YangError(line, f"{text[at]!r} is not understood")
        if found["mark"]:
            _mark(found["mark"], words, open_nodes, line)
            words = []
        elif found.lastgroup:
            words.append((found[found.lastgroup], line))
        line += text.count("\n", at, found.end())
        at = found.end()
    if len(open_nodes) > 1 or words:
        raise YangError(words[0][1] if words else open_nodes[-1].line, "the text ends inside the statement that begins here")
    return top


def _plain(text, at, line, form, inside):
    """Takes the softwires of one form from a place on: the line and the place behind them."""
    match, count = form.pattern.match, text.count
    while found := match(text, at):
        start = found.start(1)
        line += count("\n", at, start)
        inside.append(Flat(line, form, found))
        at = found.end()
        line += count("\n", start, at)
    return line, at


def _mark(mark, words, open_nodes, line):
    """Takes a `{`, `}` or `;` with the words in front of it."""
    if words:
        if len(words) > 2:
            raise YangError(line, f"more than one value behind {words[0][0]!r}")
        node = Node(words[0][0], words[1][0] if len(words) > 1 else "", words[0][1])
        open_nodes[-1].inside.append(node)
    if mark == "{":
        if not words:
            raise YangError(line, "no word stands in front of {")
        if len(open_nodes) > MOST_DEEP:
            raise YangError(line, f"statements are nested more than {MOST_DEEP} deep")
        open_nodes.append(node)
    elif mark == "}":
        if len(open_nodes) == 1:
            raise YangError(line, "a } too many")
        open_nodes.pop()
