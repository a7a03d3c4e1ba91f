# Makes table files that cost much to read, each of at most 16,777,216 bytes, and tables of 65,536 bindings in several spellings.
#     make.py FOLDER
import ipaddress
import itertools
import os
import sys

BYTES = 16_777_216
MARKS = 1_048_576  # `.`, `=`, `[`, `{` outside of comments and quoted texts
LETTERS = "abcdefghijklmnopqrstuvwxyzABCDEFGHIJKLMNOPQRSTUVWXYZ0123456789-_"
folder = sys.argv[1]
os.makedirs(folder, exist_ok=True)


def write(name, *parts):
    text = "".join(parts)
    assert len(text) <= BYTES, name
    with open(os.path.join(folder, name + ".toml"), "w") as out:
        out.write(text)


def padded(name, text):
    """The text behind an array of integers that fills the file; and the same with a last line that is wrong."""
    for end, last in (("", ""), ("_wrong", "=\n")):
        write(name + end, "x=[", "1," * ((BYTES - len(text) - len(last) - 6) // 2), "]\n", text, last)


def write_bytes(name, data):
    with open(os.path.join(folder, name + ".toml"), "wb") as out:
        out.write(data)


def key(number):
    """Keys of four letters, in no order."""
    number = number * 9_301_721 % 64**4
    return "".join(LETTERS[number // 64**place % 64] for place in range(4))


def pairs(count):
    return "".join(key(number) + "=1\n" for number in range(count))


def repeated(head, unit, tail, size=BYTES):
    return head + unit * ((size - len(head) - len(tail)) // len(unit)) + tail


# Held back: a long header with many lines below it, keys of many parts, small inline tables.
write("held_header", "[" + "x" * 8_400_000 + "]\n", pairs(1_190_000))
write("held_header_97", "[" + "x" * 97 + "]\n", pairs(2_300_000))
for mark in ('"', "'"):
    kind = "quotation" if mark == '"' else "apostrophe"
    write("held_header_in_" + kind, "x = " + 3 * mark + "a" + 3 * mark + "\n[" + mark + "=" + "x" * 9_400_000 + mark + "]\n", pairs(1_040_000))
write("held_deep_header", "[" + ".".join("a" * 80) + "]\n", pairs(2_300_000))
dotted = "{" + ".".join("a" * 80) + "=1},"
write("held_dotted_keys", repeated("binding=[", dotted, "]\n"))
write("held_inline_tables", repeated("binding=[", "{a=1},", "]\n"))

# Within the limits: as many marks, and headers as long, as a text may have.
write("empty_inline_tables", "binding=[" + "{}," * (MARKS - 3) + "]\n")
padded("inline_tables", "binding=[" + "{a=1}," * (MARKS // 2 - 2) + "]\n")
padded("dotted_keys", "binding=[" + dotted * (MARKS // 81 - 1) + "]\n")
padded("arrays_of_one", "binding=[" + "[1]," * (MARKS - 5) + "]\n")
padded("one_map", pairs(MARKS - 2))
sections = MARKS // 65 - 1
letters = "".join(letter + "=1\n" for letter in LETTERS)
padded("maps_of_64", "".join("[" + key(n) + "]\n" + letters for n in range(sections)))
sections = MARKS // 13 - 1
twelve = "".join(letter + "=1\n" for letter in LETTERS[:12])
padded("maps_of_12", "".join("[" + key(n) + "]\n" + twelve for n in range(sections)))
header = "[" + ".".join("a" * 11) + "]\n"  # weighs 91
padded("deep_header", header + pairs(MARKS - 40))
for count in (3_000, 16_000):
    others = pairs(count)
    crowd = "".join("[" + ".".join("a" * depth) + "]\n" + others for depth in range(1, 11))
    padded("deep_crowded_header_%d" % count, others + crowd + header + pairs(MARKS - 11 * count - 200))
padded("long_header", "[" + "a" * 96 + "]\n" + pairs(MARKS - 10))
long = ["[" + "a" * 90 + "%06d]\n" % n for n in range(20_000)]
padded("long_headers", "".join(long) + pairs(MARKS - 20_010))
write("hard_floats", repeated("x=[", "9007199254740993e22,", "]\n"))
nested = "{" + ".".join("a" * 80) + "="
deep = nested * 80 + "1" + "}" * 80
write("deep_6400", "x=", deep, "\n")
write("deep_6400_wrong", "x=", deep, "\n=\n")
padded("deep_6400_many", "".join("x%d=%s\n" % (n, deep) for n in range(MARKS // 6_481 - 1)))
write("array_of_tables", "[[a]]\n" * (MARKS // 2))

# As large as a file may be that is never held back.
FREE = 131_072
write("small_long_header", "[" + "a" * 65_000 + "]\n", pairs((FREE - 65_003) // 7))
write("small_deep_header", "[" + ".".join("a" * 80) + "]\n", pairs((FREE - 162) // 7))
write("small_dotted_keys", repeated("binding=[", dotted, "]\n", FREE))
write("small_inline_tables", repeated("binding=[", "{a=1},", "]\n", FREE))
others = pairs(1_500)
write("small_crowd", "".join("[" + ".".join("a" * depth) + "]\n" + others for depth in range(1, 11)), "[" + ".".join("a" * 11) + "]\n", pairs(3_600))

# No TOML at all: none of these may be answered by want of memory.
write_bytes("no_toml_empty", b"")
write_bytes("no_toml_capture", b"\xd4\xc3\xb2\xa1\x02\x00\x04\x00" + b"\x00" * 8 + b"\x00\x00\x04\x00\x65\x00\x00\x00" + b"[=.{\xff" * 600_000)
write_bytes("no_toml_capture_of_blocks", b"\n\r\r\n\x1c\x00\x00\x00M<+\x1a\x01\x00\x00\x00" + b"\xff" * 8 + b"\x1c\x00\x00\x00" + b"[=.{\xff" * 600_000)
write_bytes("no_toml_program", b"\x7fELF\x02\x01\x01" + b"\x00" * 9 + b"[=.{\xff" * 600_000)
write_bytes("no_toml_picture", b"\xff\xd8\xff\xe0\x00\x10JFIF\x00" + b"[=.{\xff" * 600_000)

# Tables of 65,536 bindings as they may be written: no limit holds these back.
SETTINGS = 'version = 1\n[softwire]\naftr = "2001:db8::1"\nown = "192.0.2.1"\n'
B4 = int(ipaddress.IPv6Address("2001:db8:1::"))
FIRST = int(ipaddress.IPv4Address("100.64.0.0"))
rows = [
    (str(ipaddress.IPv6Address(B4 + n)), str(ipaddress.IPv4Address(FIRST + n // 64)), n % 64)
    for n in range(65_536)
]
write("sound_plain", SETTINGS, "".join('[[binding]]\nb4 = "%s"\nipv4 = "%s"\noffset = 6\nlength = 6\npsid = %d\n' % row for row in rows))
note = "# customer %d, router br1.example.net, port 1.2.3 ........................................................................\n"
write("sound_comments", SETTINGS, "".join((note % row[2]) + '[[binding]]\nb4 = "%s"\nipv4 = "%s"\noffset = 6\nlength = 6\npsid = %d\n' % row for row in rows))
inline = "".join("{b4='%s', ipv4='%s', offset=6, length=6, psid=%d},\n" % row for row in rows)
write("sound_inline", "version = 1\nbinding = [\n", inline, "]\n", "[softwire]\naftr = '2001:db8::1'\nown = '192.0.2.1'\n")
quoted = "".join('[["binding"]]\n"b4" = "2001:db8:1::%s"\n"ipv4" = """%s"""\n"offset" = 6\n"length" = 6\n"psid" = %d\n' % (ipaddress.IPv4Address(n), row[1], row[2]) for n, row in enumerate(rows))
write("sound_quoted", SETTINGS, quoted)

write("no_toml_list", "[\n", ",\n".join('{"b4": "%s", "ipv4": "%s", "offset": 6, "length": 6, "psid": %d}' % row for row in rows), "\n]\n")
write("no_toml_list_on_a_line", "[", ", ".join('{"b4": "%s", "ipv4": "%s", "offset": 6, "length": 6, "psid": %d}' % row for row in rows), "]\n")
write("no_toml_lists_in_a_list", "[", ", ".join('[["%s"], ["%s"], [6, 6], [%d], [], [], [], [], [], [], [], [], []]' % row for row in rows), "]\n")
write("no_toml_object", "{", '"version": 1, "binding": [' + ", ".join("[[[[[[[[[[[[[[[[[%d]]]]]]]]]]]]]]]]]" % row[2] for row in rows), "]}\n")
write("no_toml_lines_of_commas", "".join("%s,%s,6,6,%d,%s\n" % (row[0], row[1], row[2], "." * 16) for row in rows))
write("no_toml_yaml", "binding:\n", "".join("- b4: %s\n  ipv4: %s\n  psid: %d # [=.{\n  note: [a.b.c.d.e.f.g.h.i.j.k.l.m.n.o.p.q.r.s]\n" % row for row in rows))
