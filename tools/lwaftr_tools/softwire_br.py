"""Instance data of the YANG module ietf-softwire-br (RFC 8676, section 7), as JSON (RFC 7951) and as XML (RFC 7950): the binding tables of
`br-instances/binding/bind-instance`. What is read becomes one tree of dictionaries and lists, whatever the form."""
from __future__ import annotations

import json
import re
import typing
import xml.etree.ElementTree as ElementTree

from . import command

MODULE = "ietf-softwire-br"
NAMESPACE = f"urn:ietf:params:xml:ns:yang:{MODULE}"
LISTS = ("bind-instance", "binding-entry", "algo-instance")
# how many characters of a document are read at a time
CHUNK = 1 << 16
# how deep the data may be nested: the module has eight levels
MOST_DEEP = 32


class InstanceError(command.Refused):
    """Data that is not understood, and its place."""


class Plain(typing.NamedTuple):
    """An entry of plain leaves, each with its text."""

    b4: str
    ipv4: str
    offset: str
    length: str
    psid: str
    aftr: str

    def tree(self):
        """The entry as any other one is read."""
        b4, ipv4, offset, length, psid, aftr = (it.strip() for it in self)
        ports = {"psid-offset": offset, "psid-len": length, "psid": psid}
        return {"binding-ipv6info": b4, "binding-ipv4-addr": ipv4, "port-set": ports, "br-ipv6-addr": aftr}


class Run(list):
    """Plain entries that stand one behind the other."""


def read(text, file):
    """The tree of a document, without the module's name in front of names. In the place of an entry in a list a Run may stand."""
    try:
        return _read(text, file, _of_json if text.lstrip()[:1] == "{" else _of_xml)
    except (json.JSONDecodeError, ElementTree.ParseError, RecursionError) as error:
        raise InstanceError(f"{file}: neither JSON nor XML: {error}") from None


def _read(text, file, form):
    rest, runs = _set_apart(text, form)
    if runs:
        try:
            return form(rest, runs, file)
        except (json.JSONDecodeError, ElementTree.ParseError):
            pass  # the error is to name a line of the whole text
    return form(text, [], file)


def _leaf(name):
    return rf"<{name}>([^<&]*)</{name}>\s*"


def _pair(name, value):
    return rf'"{name}"\s*:\s*{value}\s*'


# an entry of plain leaves in the order of the module, and what stands behind it: a document has tens of thousands of these
PLAIN_XML = re.compile(
    r"<binding-entry>\s*" + _leaf("binding-ipv6info") + _leaf("binding-ipv4-addr")
    + rf"<port-set>\s*{_leaf('psid-offset')}{_leaf('psid-len')}{_leaf('psid')}</port-set>\s*"
    + _leaf("br-ipv6-addr") + r"</binding-entry>\s*()"
)
PLAIN_JSON = re.compile(
    r"\{\s*" + r",\s*".join((
        _pair("binding-ipv6info", '"([^"\\\\]*)"'), _pair("binding-ipv4-addr", '"([^"\\\\]*)"'),
        _pair("port-set", r"\{\s*" + r",\s*".join(_pair(name, "([0-9]+)") for name in ("psid-offset", "psid-len", "psid")) + r"\}"),
        _pair("br-ipv6-addr", '"([^"\\\\]*)"'),
    )) + r"\}\s*(,?)\s*"
)
# what stands in the place of a run of them while the rest is read
STAND_IN = "plain-entries"


def _set_apart(text, form):
    """The text with a stand-in for each run of plain entries, and the runs; none where a comment or the like might hold what looks like one."""
    is_json = form is _of_json
    if STAND_IN in text or (not is_json and ("<!" in text or "<?" in text.lstrip()[1:])):
        return text, []
    parts, runs, at, comma = [], [], 0, ""
    stand_in = f'{{"{STAND_IN}":0}}' if is_json else f"<{STAND_IN}/>"
    for found in (PLAIN_JSON if is_json else PLAIN_XML).finditer(text):
        leaves, start = found.groups(), found.start()
        if start != at or not runs:
            # a comma behind a run is that of its last entry
            parts += [comma, text[at:start], stand_in]
            run = Run()
            runs.append(run)
        run.append(Plain._make(leaves[:-1]))
        comma, at = leaves[-1], found.end()
    return "".join([*parts, comma, text[at:]]), runs


def _of_json(text, runs, file):
    waiting = iter(runs)

    def of_object(pairs):
        """An object, without the module's name in front of names; of a stand-in its entries."""
        found = dict(pairs)
        if STAND_IN in found and runs:
            return next(waiting)
        if ":" in "".join(found):
            pairs = [(name.rpartition(":")[2], it) for name, it in pairs]
            found = dict(pairs)
        if len(found) != len(pairs):
            twice = next(name for at, (name, _) in enumerate(pairs) if name in dict(pairs[:at]))
            raise InstanceError(f"{file}: {twice} is given twice in one object")
        return found

    return json.loads(text, object_pairs_hook=of_object)


def _of_xml(text, runs, file):
    """The tree of a document of XML. An element that has ended is forgotten, so that the document is in memory once."""
    if "<!DOCTYPE" in text:
        raise InstanceError(f"{file}: a document type is not read")
    parser, waiting = ElementTree.XMLPullParser(("start", "end")), iter(runs)
    # for each element that is open its name and its children by their names
    open_ones = [("", {})]
    for at in range(0, len(text), CHUNK):
        parser.feed(text[at : at + CHUNK])
        for event, element in parser.read_events():
            if event == "start":
                if len(open_ones) > MOST_DEEP:
                    raise InstanceError(f"{file}: it is nested more than {MOST_DEEP} deep")
                open_ones.append((element.tag.rpartition("}")[2], {}))
                continue
            name, children = open_ones.pop()
            if name == STAND_IN and runs:
                name, children = "binding-entry", next(waiting)
            _put(open_ones[-1], name, children or (element.text or "").strip(), file)
            element.clear()
    parser.close()
    tree = open_ones[0][1]
    name, inside = next(iter(tree.items()))
    return inside if name in ("data", "config") and isinstance(inside, dict) else tree


def _put(parent, name, inside, file):
    """Puts an element into the one around it: into a list if there may be several."""
    children = parent[1]
    if name in LISTS:
        children.setdefault(name, []).append(inside)
    elif name in children:
        raise InstanceError(f"{file}: {name} is given twice in one {parent[0]}")
    else:
        children[name] = inside


def as_json(tree, rows, aftr):
    """A document of JSON: a tree whose list of entries is empty, and the entries, each a line. The module wants the port set of a whole
    address too."""
    lines = (
        f'{{"binding-ipv6info": "{b4}/128", "binding-ipv4-addr": "{ipv4}", '
        f'"port-set": {{"psid-offset": {offset}, "psid-len": {length}, "psid": {psid}}}, "br-ipv6-addr": "{aftr}"}}'
        for b4, ipv4, length, offset, psid in rows
    )
    # no text of JSON holds a quotation mark that is not escaped, so this is the list
    before, mark, behind = json.dumps({f"{MODULE}:br-instances": tree["br-instances"]}, indent=1).partition('"binding-entry": []')
    return f"{before}{mark[:-1]}\n" + ",\n".join(lines) + f"\n]{behind}\n"


def as_xml(tree, rows, aftr):
    """A document of XML, as `as_json`."""
    lines = (
        f"<binding-entry><binding-ipv6info>{b4}/128</binding-ipv6info><binding-ipv4-addr>{ipv4}</binding-ipv4-addr>"
        f"<port-set><psid-offset>{offset}</psid-offset><psid-len>{length}</psid-len><psid>{psid}</psid></port-set>"
        f"<br-ipv6-addr>{aftr}</br-ipv6-addr></binding-entry>\n"
        for b4, ipv4, length, offset, psid in rows
    )
    top = ElementTree.Element("br-instances", {"xmlns": NAMESPACE})
    _add(top, tree["br-instances"])
    ElementTree.indent(top, " ")
    before, _, behind = ElementTree.tostring(top, encoding="unicode").partition("<binding-entry />")
    return f'<?xml version="1.0" encoding="UTF-8"?>\n{before.rstrip()}\n' + "".join(lines) + f"{behind.lstrip()}\n"


def _add(element, tree):
    for name, it in tree.items():
        # an empty list is one empty element, in whose place entries are put
        for one in (it or [{}]) if isinstance(it, list) else [it]:
            child = ElementTree.SubElement(element, name)
            if isinstance(one, dict):
                _add(child, one)
            else:
                child.text = str(one).lower() if isinstance(one, bool) else str(one)
