"""What the program has to do with some words over some files, by the second router: exit code, standard output, the status line, and
the files that it writes."""
import ipaddress
import re

import router

MOST_RECORDS = 2**31


class NoJob(Exception):
    """The words ask for nothing."""


def number(text, least, most):
    if not re.fullmatch(r"0|[1-9][0-9]*", text) or not least <= int(text) <= most:
        raise NoJob
    return int(text)


def name(text):
    if not text:
        raise NoJob
    return text


def parts(command, words):
    """The arguments, and the values of the options."""
    arguments, options, words = [], {}, list(words)
    while words:
        it = words.pop(0)
        if it == "--":
            arguments += words
            break
        option, sign, given = it.partition("=")
        if command == "run" and option in ("--workers", "--errors"):
            if not sign:
                if not words:
                    raise NoJob
                given = words.pop(0)
            if option in options:
                raise NoJob
            options[option] = given
        elif len(it.encode()) > 1 and it.startswith("-"):
            raise NoJob
        else:
            arguments.append(it)
    return arguments, options


def load(text):
    window, colon, file = text.partition(":")
    first, dash, last = window.partition("-")
    if not colon or not dash:
        raise NoJob
    earliest = number(first, 0, MOST_RECORDS)
    return earliest, number(last, earliest, MOST_RECORDS), name(file)


def address(text):
    try:
        return ipaddress.IPv4Address(text).packed
    except ValueError:
        raise NoJob from None


def job_of(words):
    """The job that the words ask for, by 'The commands' of docs/FORMATS.md."""
    if not words:
        raise NoJob
    command, *rest = words
    arguments, options = parts(command, rest)
    if command == "run" and 5 <= len(arguments) <= 260:
        files, loads = [name(it) for it in arguments[:5]], [load(it) for it in arguments[5:]]
        every = files + [it[2] for it in loads]
        if any(every.count(it) > 1 for it in files[1:4]):
            raise NoJob
        if any(one[0] > other[0] or one[1] > other[1] for one, other in zip(loads, loads[1:])):
            raise NoJob
        workers = number(options.get("--workers", "1"), 1, 16)
        errors = number(options["--errors"], 1, 1_000_000) if "--errors" in options else None
        return ("run", files, loads, workers, errors)
    if command == "check" and len(arguments) == 1:
        return ("check", name(arguments[0]))
    if command == "who" and len(arguments) == 3:
        return ("who", name(arguments[0]), address(arguments[1]), number(arguments[2], 0, 65535))
    if command == "demo" and len(arguments) == 3:
        return ("demo", number(arguments[0], 0, 2**64 - 1), number(arguments[1], 1, 1_000_000), number(arguments[2], 1, 16))
    if command == "migrate" and len(arguments) == 2 and arguments[0] != arguments[1]:
        return ("migrate", name(arguments[0]), name(arguments[1]))
    raise NoJob


class Expected:
    def __init__(self, code, said="", status=None, files=None):
        self.code, self.said, self.status, self.files = code, said, status, files or {}


def refused(text):
    return Expected(5, status=f"table refused: {text}")


READ_FAULT = (3, "read fault")


def points_of(text, loads, count):
    """The points that VERSIONS names, each held against its window; or, as a text, the first line that is wrong."""
    lines, points, version = text.splitlines()[1:], [], 0
    if len(lines) != len(loads):
        return f"{len(lines)} lines of loads"
    for line, (earliest, latest, file, why) in zip(lines, loads):
        if why is None and earliest <= count:
            found = re.fullmatch(rf"{version + 1} {re.escape(file)} at (\d+)", line)
            if not found or not max([earliest, *points[-1:]]) <= int(found[1]) <= min(latest, count):
                return line
            points.append(int(found[1]))
            version += 1
        elif why is None and line != f"- {file} not-reached":
            return line
        elif why is not None and line != f"- {file} refused {why}":
            return line
    return points


def of_run(job, files, versions):
    """`versions` is what the program wrote into VERSIONS: which points it chose is its own affair, the rest is not."""
    _, (input, out, verdicts, versions_name, table), loads, _, errors = job
    if table not in files:
        return Expected(*READ_FAULT[:1], status=READ_FAULT[1])
    first = router.table_of(files[table])
    if isinstance(first, router.Refused):
        return refused(first)
    tables, noted = [first], []
    for earliest, latest, file in loads:
        if file not in files:
            return Expected(3, status="read fault")
        found = router.table_of(files[file])
        if isinstance(found, router.Refused):
            noted.append((earliest, latest, file, str(found).removeprefix("rules ")))
        else:
            tables.append(found)
            noted.append((earliest, latest, file, None))
    if input not in files:
        return Expected(3, status="read fault")
    try:
        capture = router.Capture(files[input])
    except router.Refused as why:
        return Expected(6, status=f"capture refused: {why}")
    if versions is None or versions.splitlines()[:1] != [f"0 {table} initial"]:
        return Expected(-1, status="VERSIONS is wrong from its first line on")
    points = points_of(versions, noted, len(capture.records))
    if isinstance(points, str):
        return Expected(-1, status=f"VERSIONS is wrong: {points}")
    made, lines, summary = router.run(capture, tables, points, errors)
    written = {out: made, verdicts: "".join(f"{it}\n" for it in lines).encode(), versions_name: versions.encode()}
    code, status = 0, None
    if any(why for *_, why in noted):
        code, status = 1, "done, a load was refused"
    if capture.ending:
        code, status = 6, f"capture refused: {capture.ending}"
    return Expected(code, summary + "\n", status, written)


def traffic(seed, count):
    """The generated capture and its two tables."""
    import struct

    state, records = seed, []
    aftr = ipaddress.IPv6Address("2001:db8::1").packed

    def address_of(s):
        return (0xCB007100 + s // 16).to_bytes(4, "big")

    def b4_of(s):
        return (0x20010DB8000100000000000000000000 + s).to_bytes(16, "big")

    far = bytes([198, 51, 100, 7])
    for at in range(count):
        state = (state * 6364136223846793005 + 1442695040888963407) % 2**64
        r = state >> 32
        s, kind, t, b = r % 256, r // 256 % 4, r // 1024 % 256, r // 262144 % 64
        port, other = 1024 + 64 * (s % 16) + b, 1024 + 64 * (t % 16) + b
        src, dst, ports = {0: (address_of(s), far, (port, 53)), 1: (far, address_of(s), (53, port)), 2: (address_of(s), address_of(t), (port, other)), 3: (address_of(s), far, (b, 53))}[kind]
        udp = struct.pack("!HHHH", *ports, 12, 0) + b"test"
        head = struct.pack("!BBHHHBBH", 69, 0, 32, at % 65536, 0, 64, 17, 0) + src + dst
        data = router.with_checksum(head, 10) + udp
        if kind != 1:
            data = bytes.fromhex("6000000000200440") + b4_of(s) + aftr + data
        records.append(struct.pack("<IIII", at // 1000, at % 1000 * 1000, len(data), len(data)) + data)
    capture = bytes.fromhex("d4c3b2a1020004000000000000000000000004006500000000"[:48]) + b"".join(records)
    rows = "".join(f'[[binding]]\nb4 = "{ipaddress.IPv6Address(b4_of(s))}"\nipv4 = "{ipaddress.IPv4Address(address_of(s))}"\noffset = 6\nlength = 4\npsid = {s % 16}\n' for s in range(256))
    front = 'version = 1\n[softwire]\naftr = "2001:db8::1"\nown = "192.0.2.1"\n'
    first = (front + rows).encode()
    second = (front + rows[rows.index('b4 = "2001:db8:1::40"') - len("[[binding]]\n") :]).encode()
    return capture, first, second


def expected(words, files, written):
    """What has to come of the words over these files. `written` is what the program wrote, by name: VERSIONS is taken from it for its
    points, and a migrated table is read back."""
    try:
        job = job_of(words)
    except NoJob:
        return Expected(2, status="usage")
    if job[0] == "run":
        versions = written.get(job[1][3])
        return of_run(job, files, versions.decode("utf-8", "replace") if versions is not None else None)
    if job[0] == "demo":
        _, seed, count, _ = job
        capture, first, second = traffic(seed, count)
        summary = router.run(router.Capture(capture), [router.Table(first), router.Table(second)], [count // 2])[2]
        return Expected(0, summary + "\n")
    if job[1] not in files:
        return Expected(3, status="read fault")
    table = router.table_of(files[job[1]])
    if isinstance(table, router.Refused):
        return refused(table)
    if job[0] == "check":
        return Expected(0, f"valid {len(table.bindings)} bindings\n")
    if job[0] == "who":
        b4 = table.owner(job[2], job[3])
        return Expected(0, (str(ipaddress.IPv6Address(b4)) if b4 else "none") + "\n")
    found = written.get(job[2], b"")
    try:
        back = router.Table(found)
    except router.Refused as why:
        return Expected(-1, status=f"the migrated table is refused: {why}")
    same = all(getattr(back, it) == getattr(table, it) for it in (*router.SETTINGS, "bindings")) and back.edition == 2
    return Expected(0 if same else -1, f"migrated {len(table.bindings)} bindings\n", files={job[2]: found})
