#!/usr/bin/env python3
"""Who had an address and a port at a time, for many questions at once.

    tools/who_at.py QUESTIONS TIME=TABLE [TIME=TABLE]...
    tools/who_at.py QUESTIONS --git TABLE

QUESTIONS has a line `TIME,ADDRESS,PORT` for each question; blank lines and lines that begin with # are passed over. A time is one of ISO 8601, as
2026-11-24T18:30:00Z or 2026-11-24T18:30:00+01:00 (without a zone it is UTC), or seconds since 1970. A table is in force from its time until that
of the next one. With --git the tables are the versions of one file in its repository, each from the time of its commit on, along the first
parents of the branch that is checked out. Each answer is a line `TIME,ADDRESS,PORT,B4,TABLE`: B4 is the subscriber's end of the tunnel,
`none` if no subscriber had the port, or `no-table` if no table was in force yet."""
from __future__ import annotations

import argparse
import bisect
import csv
import dataclasses
import datetime
import functools
import io
import os
import subprocess
import tempfile
import typing

from lwaftr_tools import addresses, command, converting, tables


@functools.lru_cache(maxsize=1 << 12)
def seconds(text):
    """Seconds since 1970 of a time in words."""
    try:
        return float(converting.number("time", text))
    except ValueError:
        pass
    try:
        time = datetime.datetime.fromisoformat(text[:-1] + "+00:00" if text.endswith(("Z", "z")) else text)
    except ValueError:
        raise ValueError(f"{text!r} is no time (write 2026-11-24T18:30:00Z or seconds since 1970)") from None
    return (time if time.tzinfo else time.replace(tzinfo=datetime.timezone.utc)).timestamp()


@dataclasses.dataclass
class Version:
    """A table that is in force from a time on: its name, and how its text comes to be read."""

    start: float
    name: str
    path: str
    repository: str | None = None

    def rows(self):
        """The bindings of the table, as texts."""
        if self.repository is None:
            return tables.document(self.path).rows
        text = git(self.repository, "show", f"{self.name}:{self.path}")
        with tempfile.TemporaryDirectory() as folder:
            made = os.path.join(folder, "table.toml")
            command.put(made, text)
            return tables.document(made).rows


def git(folder, *words):
    it = subprocess.run(["git", "-C", folder, *words], capture_output=True, check=False)
    if it.returncode:
        raise command.Unusable(f"git {words[0]}: {it.stderr.decode('utf-8', 'replace').strip()}")
    return it.stdout


def versions_in_git(path):
    """The versions of a file, one for each commit that changed it."""
    folder, name = os.path.split(os.path.abspath(path))
    log = git(folder, "log", "--first-parent", "--format=%H %ct", "--", name).decode()
    found = [Version(float(time), commit, f"./{name}", folder) for commit, time in (line.split() for line in log.splitlines())]
    if not found:
        raise command.Unusable(f"{path}: git has no version of it")
    return found[::-1]


def version(word):
    """A word TIME=TABLE."""
    time, mark, path = word.partition("=")
    try:
        if not mark or not path:
            raise ValueError(f"{word!r} is not TIME=TABLE")
        return Version(seconds(time), path, path)
    except ValueError as error:
        raise argparse.ArgumentTypeError(str(error)) from None


class Question(typing.NamedTuple):
    words: list
    time: float
    port: int


def questions(text, file):
    rows = csv.reader(io.StringIO(text, newline=""))
    for row in rows:
        words = [it.strip() for it in row]
        if not any(words) or words[0].startswith("#"):
            continue
        try:
            if len(words) != 3:
                raise ValueError(f"columns here: {len(words)}, wanted: 3 (time,address,port)")
            port = converting.number("port", words[2])
            if port > 65535:
                raise ValueError(f"port {port} is above 65535")
            addresses.ipv4(words[1])
            yield Question(words, seconds(words[0]), port)
        except ValueError as error:
            raise converting.SourceError(file, rows.line_num, error) from None


def owners(rows, asked):
    """Who owns the port of each question, `none` if nobody does. An address has one spelling, so texts are compared."""
    ipv4s = {it.words[1] for it in asked}
    # for each address that is asked for and each shape of its sets the rows by their identifiers
    shapes_of = {ipv4: {} for ipv4 in ipv4s}
    for row in rows:
        if row.ipv4 in ipv4s:
            shapes_of[row.ipv4].setdefault((int(row.offset), int(row.length)), {})[int(row.psid)] = row.b4
    for it in asked:
        found = (by_psid.get(tables.psid_of(it.port, *shape)) for shape, by_psid in shapes_of[it.words[1]].items())
        yield next((b4 for b4 in found if b4), "none")


def answers(asked, versions):
    """For each question the subscriber and the table's name. Each table is read once, and one at a time is kept."""
    versions = sorted(versions, key=lambda it: it.start)
    starts = [it.start for it in versions]
    by_version = {}
    for at, it in enumerate(asked):
        by_version.setdefault(bisect.bisect(starts, it.time) - 1, []).append(at)
    found = [("no-table", "")] * len(asked)
    for place, its in by_version.items():
        if place < 0:
            continue
        name = versions[place].name
        for at, b4 in zip(its, owners(versions[place].rows(), [asked[at] for at in its])):
            found[at] = b4, name
    return found


def main():
    it = command.Parser(__doc__)
    it.add_argument("questions", metavar="QUESTIONS", type=command.source, help="a line TIME,ADDRESS,PORT for each question; - is standard input")
    it.add_argument("versions", metavar="TIME=TABLE", nargs="*", type=version, help="a table, and from when on it was in force")
    it.add_argument("--git", metavar="TABLE", help="a file whose versions in git are the tables")
    words = it.parse_args()
    if bool(words.versions) == bool(words.git):
        it.error("give either TIME=TABLE, once or more, or --git TABLE")
    asked = list(questions(command.text_of(words.questions, newline=""), words.questions))
    found = answers(asked, versions_in_git(words.git) if words.git else words.versions)
    made = io.StringIO()
    csv.writer(made, lineterminator="\n").writerows([*question.words, *answer] for question, answer in zip(asked, found))
    command.say(made.getvalue())


if __name__ == "__main__":
    command.run(main)
