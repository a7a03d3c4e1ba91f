#!/usr/bin/env python3
"""What the program says to standard error where words, files, tables or captures are wrong, held against messages.txt.

    diff/program_ends/messages.py [--write] [PROGRAM]

Each call of messages.txt is a line `$ WORDS`, and behind it stands what is printed. A call ends with `> /dev/full` or `>&-` where standard
output is that or is closed, with `| :` where nobody reads it, and with `# nobody` where a user calls who may neither read closed.toml nor
write into the folder. With --write the page is made anew: read it then. PROGRAM takes the words of `lwaftr`; without it the program of this
repository is built. It ends with 1 where a call says something else.
"""
import os
import shlex
import shutil
import subprocess
import sys

import ends

HERE = os.path.dirname(os.path.realpath(__file__))
PAGE = os.path.join(HERE, "messages.txt")
SECTION = bytes.fromhex("0a0d0d0a1c0000004d3c2b1a01000000ffffffffffffffff1c000000")


def interface(link):
    return bytes.fromhex("0100000014000000") + link.to_bytes(4, "little") + bytes.fromhex("0000000014000000")


def with_settings(text):
    """The table with lines more of its settings."""
    return ends.TABLE.replace(b"[[binding]]", text + b"\n[[binding]]")


FILES = {
    "list.json": b'[{"address": "203.0.113.1"}]\n',
    "no-aftr.toml": b"version = 1\n[softwire]\nown = \"192.0.2.1\"\n",
    "key.toml": ends.TABLE + b"port = 3\n",
    "settings.toml": with_settings(b"hop-limit = 64"),
    "top.toml": b"mtu = 1500\n" + ends.TABLE + b"port = 3\n",
    "keys.toml": ends.TABLE + b'[[binding]]\nb4 = "2001:db8:1::2"\nipv4 = "203.0.113.2"\npsids = 0\nPsid = 0\n[[binding]]\nport = 3\n',
    "inline-key.toml": ends.TABLE[:ends.TABLE.index(b"[[binding]]")].replace(
        b"[softwire]", b'binding = [{b4 = "2001:db8:1::1", ipv4 = "203.0.113.1", port = 3}]\n[softwire]'),
    "odd.toml": b'"\\u001b[31m' + b"x" * 60 + b'" = 1\n' + ends.TABLE,
    "twice.toml": ends.TABLE + ends.TABLE[ends.TABLE.index(b"[[binding]]"):],
    "link.pcap": ends.HEADER[:20] + (113).to_bytes(4, "little"),
    "cut.pcap": ends.CAPTURE[:-1],
    "long.pcap": ends.HEADER + b"\0" * 8 + (300_000).to_bytes(4, "little") * 2,
    "in.pcap.gz": b"\x1f\x8b\x08\0\0\0\0\0\0\x03" + b"\0" * 30,
    "cut.pcapng": bytes.fromhex("0a0d0d0a1c0000004d3c2b1a01000000"),
    "closed.toml": ends.TABLE,
    "costly.toml": b"version = 1\n" + b"a.b = 1\n" * 600_000,
    "costly.json": b"[\n" + b"a.b = 1\n" * 600_000,
    "quote.toml": ends.TABLE.replace(b'own = "192.0.2.1"', b'own = "192.0.2.1'),
    "open.toml": b"version = 1\nnames = [\n  'a',\n  'b'\n" + ends.TABLE[12:],
    "key-twice.toml": ends.TABLE + b'ipv4 = "203.0.113.2"\n',
    "latin.toml": b"# \xc3\xa4\n# \xe4\n" + ends.TABLE,
    "second.toml": ends.TABLE + b"\n# [[binding]]\n[[ binding ]]  # two\nipv4 = \"203.0.113.2\"\n",
    "shape.toml": ends.TABLE + b"offset = 9\nlength = 9\n",
    "bits.toml": ends.TABLE + b"length = 4\npsid = 16\n",
    "far.toml": with_settings(b"mtu6 = 9223372036854775808"),
    "inline.toml": ends.TABLE[:ends.TABLE.index(b"[[binding]]")].replace(b"[softwire]", b"binding = [{b4 = 4}]\n[softwire]"),
    "big.toml": ends.TABLE + b"#" * 16_777_216,
    "version.toml": ends.TABLE.replace(b"version = 1", b"version = 3"),
    "mtu.toml": with_settings(b"mtu6 = 1279"),
    "hop.toml": with_settings(b"hop_limit = 0"),
    "hops.toml": with_settings(b"hop_limit = 256"),
    "jumbo.toml": with_settings(b"mtu6 = 65536"),
    "small.toml": with_settings(b"mtu4 = -1"),
    "offset.toml": ends.TABLE + b"offset = 256\n",
    "length.toml": ends.TABLE + b"length = 256\n",
    "psid.toml": ends.TABLE + b"psid = 65536\n",
    "empty.pcap": b"",
    "part.pcap": ends.HEADER + b"\0" * 15,
    "older.pcap": ends.HEADER[:6] + b"\x03" + ends.HEADER[7:],
    # Of an interface: two thirds of its block, a block with another length at its end, and a resolution of 10^-20 s.
    "half.pcapng": SECTION + interface(101)[:-8],
    "length.pcapng": SECTION + interface(101)[:-4] + bytes.fromhex("18000000"),
    "fine.pcapng": SECTION + bytes.fromhex("0100000020000000650000000000000009000100140000000000000020000000"),
    "link.pcapng": SECTION + interface(113),
    "mixed.pcapng": SECTION + interface(1) + interface(101),
    # An enhanced packet block of 262,145 bytes with three of padding (type 6).
    "long.pcapng": SECTION + interface(101) + bytes.fromhex("06000000") + (262_180).to_bytes(4, "little") + b"\0" * 12
    + (262_145).to_bytes(4, "little") * 2 + b"\0" * 262_148 + (262_180).to_bytes(4, "little"),
}


def calls():
    with open(PAGE, encoding="utf-8") as it:
        return [line[2:].rstrip("\n") for line in it if line.startswith("$ ")]


def without_reader():
    read, write = os.pipe()
    os.close(read)
    return write


def as_nobody():
    if os.geteuid() == 0:
        os.setgroups([])
        os.setgid(65534)
        os.setuid(65534)


# How a call is made that ends so: what standard output is, and what is done before the program begins.
WAYS = {
    " > /dev/full": (lambda: os.open("/dev/full", os.O_WRONLY), None),
    " >&-": (lambda: None, lambda: os.close(1)),
    " | :": (without_reader, None),
    " # nobody": (lambda: subprocess.PIPE, as_nobody),
}


def said(program, call):
    folder = ends.folder_with_files()
    try:
        for name, data in FILES.items():
            with open(os.path.join(folder, name), "wb") as it:
                it.write(data)
        os.chmod(os.path.join(folder, "closed.toml"), 0)
        os.chmod(folder, 0o555 if call.endswith(" # nobody") else 0o755)
        words, output, before = call, subprocess.PIPE, None
        for end, (make_output, first) in WAYS.items():
            if call.endswith(end):
                words, output, before = call[:-len(end)], make_output(), first
        it = subprocess.run([program, *shlex.split(words)], cwd=folder, stdin=subprocess.DEVNULL, stdout=output,
                            stderr=subprocess.PIPE, preexec_fn=before, timeout=60)
        if isinstance(output, int) and output >= 0:
            os.close(output)
        return it.stderr.decode("utf-8", "replace")
    finally:
        os.chmod(folder, 0o755)
        shutil.rmtree(folder)


def main():
    words = [it for it in sys.argv[1:] if it != "--write"]
    top = os.path.dirname(os.path.dirname(HERE))
    program = os.path.abspath(words[0]) if words else subprocess.run(
        [f"{top}/build", "--program"], capture_output=True, text=True, check=True).stdout.strip()
    page = "".join(f"$ {call}\n{said(program, call)}" for call in calls())
    if "--write" in sys.argv:
        with open(PAGE, "w", encoding="utf-8") as it:
            it.write(page)
        return 0
    with open(PAGE, encoding="utf-8") as it:
        wanted = it.read()
    for seen, due in zip(page.split("\n$ "), wanted.split("\n$ ")):
        if seen != due:
            print(f"otherwise: {seen}\nand not:   {due}")
    print(f"{page.count('$ ')} calls, {sum(a != b for a, b in zip(page.split(chr(10) + '$ '), wanted.split(chr(10) + '$ ')))} say something else")
    return page != wanted


if __name__ == "__main__":
    sys.exit(main())
