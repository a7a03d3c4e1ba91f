"""Tables from seeds: good ones, one for each refusal that docs/FORMATS.md names, damaged ones, and what is no table at all."""
import ipaddress

import router

AFTR, OWN = ipaddress.IPv6Address("2001:db8::1").packed, bytes([192, 0, 2, 1])
SHAPES = [(0, 0), (6, 8), (6, 8), (0, 16), (6, 0), (4, 12), (0, 8), (15, 1), (10, 6), (1, 15)]


BINDING = ("b4", "ipv4", "offset", "length", "psid")


def text_of(name, it):
    """A value as TOML spells it."""
    return f'"{router.ADDRESSES[name](it)}"' if name in router.ADDRESSES else str(it).lower()


def texts_of(edition, rows, keys):
    """The texts of a table: of the keys at the top, of the settings, of each binding."""
    settings = {"aftr": AFTR, "own": OWN, **router.DEFAULTS, **keys}
    bindings = [{name: text_of(name, it) for name, it in zip(BINDING, row)} for row in rows]
    return {"version": str(edition)}, {name: text_of(name, it) for name, it in settings.items()}, bindings


def spelled(r, top, settings, bindings):
    """A table file of these texts, in one of several spellings; settings or bindings that are None are left out."""
    lines = [f"{name} = {it}" for name, it in top.items()]
    front = [f"{name} = {it}" for name, it in (settings or {}).items() if r.random() < 0.9 or it != str(router.DEFAULTS.get(name)).lower()]
    bodies = [[f"{name} = {it}" for name, it in binding.items()] for binding in bindings or []]
    style = r.random()
    for it in bodies:
        if r.random() < 0.3:
            r.shuffle(it)
    if style < 0.6:
        lines += ["[softwire]", *front] if settings is not None else []
        for it in bodies:
            lines += ["[[binding]]", *it]
    elif style < 0.8:
        lines += [f"softwire.{it}" for it in front]
        lines += ["binding = ["] + [f"  {{ {', '.join(it)} }}," for it in bodies] + ["]"] if bindings is not None else []
    else:
        lines += ["softwire = { " + ", ".join(front) + " }"] if settings is not None else []
        for it in bodies:
            lines += ["[[ binding ]]  # a subscriber", *it]
    end = "\r\n" if r.random() < 0.1 else "\n"
    return end.join(lines) + (end if r.random() < 0.9 else "")


def table_text(r, edition, rows, **keys):
    """A table file, in one of several spellings."""
    return spelled(r, *texts_of(edition, rows, keys))


def rows_of(r, shapes_of):
    """Bindings that no rule refuses."""
    rows, taken = [], {}
    for at in range(r.choice([1, 2, 3, 5, 9, 20])):
        v4 = bytes([203, 0, 113, r.randrange(1, 6)])
        offset, length = shapes_of(v4)
        it = (offset, length, r.randrange(1 << length))
        mine = router.ports_of(*it)
        if mine & taken.get(v4, 0) == 0:
            taken[v4] = taken.get(v4, 0) | mine
            rows.append((end_of_a_tunnel(r, at), v4, *it))
    return rows


def end_of_a_tunnel(r, at):
    """An address that several bindings may have, one of its own, or one with zeros in any of its groups."""
    kind = r.random()
    if kind < 0.2:
        return b"".join((0 if r.random() < 0.4 else r.choice([1, 0xF0, 0xABC, 0xFFFF])).to_bytes(2, "big") for _ in range(8))
    return (0x20010DB80001 << 80 | r.randrange(6) if kind < 0.45 else 0x20010DB80002 << 80 | at).to_bytes(16, "big")


def other_spelling(r, text):
    """The same IPv6 address spelled otherwise (RFC 4291, section 2.2)."""
    whole = ipaddress.IPv6Address(text.strip('"')).exploded
    dotted = whole[:30] + str(ipaddress.IPv4Address(int(whole[30:].replace(":", ""), 16)))
    zeros = whole.replace(":0000:", "::", 1) if ":0000:" in whole else whole
    return f'"{r.choice([whole, whole.upper(), dotted, zeros, text.strip(chr(34)).upper()])}"'


def good_texts(r):
    """The texts of a table that no rule refuses."""
    edition = r.choice([1, 2])
    chosen = {}

    def shape(v4):
        if edition == 2:
            return r.choice(SHAPES)
        return chosen.setdefault(v4, r.choice(SHAPES))

    keys = {
        "mtu6": r.choice([1500, 1500, 1280, 1281, 1283, 9000, 65535]), "mtu4": r.choice([1500, 1500, 576, 577, 600, 65535]),
        "hop_limit": r.choice([64, 1, 255]), "hairpin": r.random() < 0.8, "icmp_in": r.random() < 0.8,
        "errors_up": r.random() < 0.5, "errors_down": r.random() < 0.5,
    }
    top, settings, bindings = texts_of(edition, rows_of(r, shape), keys)
    for it in bindings:
        if r.random() < 0.1:
            it["b4"] = other_spelling(r, it["b4"])
    return top, settings, bindings


def good_table(r):
    return spelled(r, *good_texts(r))


# What to aim at: a refusal, and the place and key that it names, if it names any.
PLACES = {"top": ("version", "softwire", "binding"), "softwire": router.SETTINGS, "binding": BINDING}
EVERY_KEY = [(place, name) for place, names in PLACES.items() for name in names]
AIMS = [("missing", *it) for it in EVERY_KEY if it[1] in ("version", "softwire", "aftr", "own", "b4", "ipv4")]
AIMS += [("kind", *it) for it in EVERY_KEY]
AIMS += [("address", *it) for it in EVERY_KEY if it[1] in router.ADDRESSES]
AIMS += [("range", *it) for it in EVERY_KEY if it[1] in router.LIMITS]
AIMS += [("unknown-key", place, "") for place in PLACES]
AIMS += [(it, "", "") for it in ("not-toml", "version", "mtu", "hop", "shape", "psid", "own-address", "mixed-shape", "twice")]
OF_OTHER_KINDS = {
    "integer": ['"5"', "1.0", "true", "1979-05-27", "[1]", "{}", "inf"],
    "address": ["1", "true", "1.5", "[]", "07:32:00", '["::1"]'],
    "flag": ["1", '"true"', "0.0", "[true]"],
    "softwire": ["3", '"x"', "[]", "[1]", "true", "[{ aftr = '::1' }]"],
    "binding": ["3", '"x"', "[1]", "{}", "[[]]", "true", "[{ b4 = '::1', ipv4 = '10.0.0.1' }, 1]"],
}
NO_ADDRESSES = [
    "", " ::1", "::1 ", "::g", "1::2::3", "12345::", ":::", "[::1]", "::1/128", "::1%eth0", "1:2:3:4:5:6:7", "1:2:3:4:5:6:7:8:9", "::1.2.3",
    "1.2.3", "1.2.3.4.5", "256.1.1.1", "203.0.113.01", "1.2.3.4/32", "0x1.2.3.4", "1.2.3.-4", "1..2.3", "1.2.3.4 ",
]
NO_TOML = ["", "1 2", "0o8", '"', "'", "tru", "[1", "9223372036854775808", "-9223372036854775809", "1__0", "_1", "01", "1.", '"\\q"', '"\\ud800"', "2026-13-01"]
NO_SHAPES = [(16, 0), (255, 0), (0, 17), (0, 255), (15, 2), (8, 9), (1, 16), (255, 255)]


def kind_of(name):
    """The kind of a key's value."""
    if name in ("softwire", "binding"):
        return name
    return "address" if name in router.ADDRESSES else "integer" if name in router.LIMITS or name == "version" else "flag"


def two_and_both(r, one):
    """Three bindings of one address: two that share no port, and one that has the ports of both."""
    offset, length = str(r.randrange(9)), r.randrange(1, 8)
    psid = r.randrange(1 << length - 1)
    two = [{**one, "offset": offset, "length": str(length), "psid": str(it)} for it in (2 * psid, 2 * psid + 1)]
    return [*two, {**one, "b4": text_of("b4", AFTR), "offset": offset, "length": str(length - 1), "psid": str(psid)}]


def aimed_table(r):
    """A table that is refused by one refusal, each as often as the others."""
    what, place, name = r.choice(AIMS)
    top, settings, bindings = good_texts(r)
    at = r.randrange(len(bindings))
    one = bindings[at]
    into = {"top": top, "softwire": settings, "binding": one}.get(place)
    if place == "top" and name == "softwire":
        settings = None
    if place == "top" and name == "binding":
        bindings = None
    if what == "missing":
        into.pop(name, None)
    elif what == "kind":
        into[name] = r.choice(OF_OTHER_KINDS[kind_of(name)])
    elif what == "address":
        into[name] = f'"{r.choice(NO_ADDRESSES)}"'
    elif what == "range":
        into[name] = r.choice(["-1", str(router.LIMITS[name] + 1), "0x10001", "9223372036854775807", "-9223372036854775808"])
    elif what == "unknown-key":
        into[r.choice(["other", "hop-limit", "ports", '"b4 "'])] = "1"
    elif what == "not-toml":
        settings[r.choice([*settings])] = r.choice(NO_TOML)
    elif what == "version":
        top["version"] = r.choice(["0", "3", "-1", "9223372036854775807"])
    elif what == "mtu":
        settings |= {"mtu6": r.choice(["0", "1279"])} if r.random() < 0.5 else {"mtu4": r.choice(["0", "575"])}
    elif what == "hop":
        settings["hop_limit"] = "0"
    elif what == "shape":
        one["offset"], one["length"] = map(str, r.choice(NO_SHAPES))
    elif what == "psid":
        length = r.randrange(16)
        one |= {"offset": str(r.randrange(min(15, 16 - length) + 1)), "length": str(length), "psid": str(r.choice([1 << length, 65535]))}
        bindings = [one, *(it for it in bindings if it["ipv4"] != one["ipv4"])]
    elif what == "own-address":
        settings["own"] = one["ipv4"]
    elif what == "mixed-shape":
        offset, length = r.choice([it for it in SHAPES if str(it) != f"({one['offset']}, {one['length']})"])
        top["version"] = "1"
        bindings = [one, {**one, "offset": str(offset), "length": str(length), "psid": "0"}]
    elif what == "twice" and r.random() < 0.5:
        top["version"] = "2"
        bindings = [*(it for it in bindings if it["ipv4"] != one["ipv4"]), *two_and_both(r, one)]
    elif what == "twice":
        bindings.insert(r.randrange(at + 1, len(bindings) + 1), {**one, "b4": text_of("b4", AFTR)})
    return spelled(r, top, settings, bindings).encode()


VALUES = [
    "1.5", '"x"', "true", "1979-05-27", "[]", "{}", "0x10", "1_0", "-1", "70000", "256", "0", "9223372036854775808", '"::1"', '"1.2.3.4"',
    '"2001:db8::g"', '"203.0.113.01"', '"2001:db8::1%eth0"', "'''::2'''", '"\\u0031.2.3.4"',
]


def bad_table(r):
    """A table file with one fault or two."""
    text = good_table(r)
    for _ in range(r.choice([1, 1, 2])):
        lines = text.splitlines()
        at = r.randrange(len(lines))
        kind = r.randrange(14)
        if kind == 0:
            del lines[at]
        elif kind == 1:
            lines.insert(at, lines[at])
        elif kind == 2:
            lines.insert(at, r.choice(["hop-limit = 3", "psid = 1", "x = 1", "version = 1", 'b4 = "::1"', "[other]", "a.b = 2"]))
        elif kind == 3:
            name, sign, _ = lines[at].partition(" = ")
            lines[at] = name + sign + r.choice(VALUES)
        elif kind == 4:
            text = text.replace("version = 1", r.choice(["version = 3", "version = '1'", "", "version = 2", "version = 1.0"]))
            text = text.replace("version = 2", r.choice(["version = 0", "version = 1", "version = 2"]))
            continue
        elif kind == 5:
            text = text.replace("mtu6 = ", r.choice(["mtu6 = 1", "mtu6 = 12", "mtu = ", "mtu6 = -"]), 1)
            continue
        elif kind == 6:
            text = text.replace("hop_limit = ", r.choice(["hop_limit = 0 #", "hop_limit = 256 #", "hoplimit = "]), 1)
            continue
        elif kind == 7:
            text = text.replace("psid = ", r.choice(["psid = 9", "psid = 6553", "psids = "]), 1)
            continue
        elif kind == 8:
            text = text.replace("length = ", r.choice(["length = 1", "length = 3", "length = 25"]), 1)
            continue
        elif kind == 9:
            text = text.replace("offset = ", r.choice(["offset = 1", "offset = 30", "offset = 2"]), 1)
            continue
        elif kind == 10:
            if r.random() < 0.3:
                text = text.replace("203.0.113.", r.choice(["192.0.2.1 #", "203.0.114.", "203.0.113.2"]), 1)
            else:
                text = text.replace('own = "192.0.2.1"', 'own = "203.0.113.1"')
            continue
        elif kind == 11:
            data = text.encode()
            place = r.randrange(len(data))
            return data[:place] + r.choice([b"\xff", b"\0", b"\"", b"[", b"\n", b"=", b"'''", b"\xc3\xa9"]) + data[place + r.randrange(3) :]
        elif kind == 12:
            text = text.replace("[[binding]]", r.choice(["[binding]", "[[bindings]]", "[binding.x]"]), 1)
            text = text.replace("binding = [", r.choice(["binding = [ 1, ", "binding = ["]), 1)
            continue
        else:
            # a copy of what is there, so that ports are owned twice
            if "[[" in text:
                piece = text[text.index("[[") :]
                second = piece.find("[[", 2)
                text += "\n" + (piece if second < 0 else piece[:second])
            continue
        text = "\n".join(lines) + "\n"
    return text.encode()


def large_table(r):
    """A table with one binding too many or some more, or a file with as many bytes as it may have, with one too many or with more."""
    front = f'version = 1\nsoftwire = {{ aftr = "{ipaddress.IPv6Address(AFTR)}", own = "{ipaddress.IPv4Address(OWN)}" }}\n'
    if r.random() < 0.5:
        size = r.choice([2**24, 2**24 + 1, 2**24 + 1, 2**25])
        return (front + "#").encode().ljust(size - 1, b"x") + b"\n"
    count = 65537 + r.choice([0, 0, 5])
    rows = "".join(f'{{b4="::{at >> 16:x}:{at & 0xFFFF:x}",ipv4="10.{at >> 16}.{at >> 8 & 255}.{at & 255}"}},' for at in range(count))
    return (front + f"binding = [{rows}]\n").encode()


def no_table(r):
    """What is given in place of a table by mistake."""
    return r.choice([
        b"", b"\n", b"{}", b"[1, 2]", b"a,b,c\n1,2,3\n", b"\x7fELF\2\1\1" + r.randbytes(60), b"\xff\xd8\xff\xe0" + r.randbytes(60), b"---\na: 1\n",
        bytes.fromhex("d4c3b2a102000400") + r.randbytes(40), b"\xef\xbb\xbfversion = 1",
    ])


def wrong_table(r):
    """A table that is mostly refused: by one refusal, by what was damaged, or since it is no table."""
    return r.choice([aimed_table, bad_table, bad_table])(r) if r.random() < 0.9 else no_table(r)
