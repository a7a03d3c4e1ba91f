#!/usr/bin/env python3
"""The manual page of a tool, made from its help.

    packaging/manual.py COMMAND VERSION DATE > COMMAND.1     COMMAND: the path of the tool, under the name that it has once installed"""
import os
import re
import subprocess
import sys


def escaped(line):
    """A line that roff takes as it stands."""
    line = line.replace("\\", "\\e").replace("-", "\\-")
    return f"\\&{line}" if line[:1] in (".", "'") else line


def sections(text):
    """The usage, the description, the arguments and the exit codes of a help."""
    usage, _, rest = text.partition("\n\n")
    rest, _, codes = rest.partition("exit codes:\n")
    found = re.search(r"(?m)^(?:positional arguments|options):\n", rest)
    return usage.removeprefix("usage: "), rest[: found.start()], rest[found.start() :], codes


def page(command, text, version, date):
    usage, description, arguments, codes = sections(text)
    purpose = description.strip().split(".")[0].split(":")[0].replace("\n", " ")
    lines = [f'.TH {command.upper()} 1 "{date}" "lwaftr {version}" "User commands"', ".SH NAME", f"{escaped(command)} \\- {escaped(purpose[0].lower() + purpose[1:])}"]
    lines += [".SH SYNOPSIS", ".nf", *map(escaped, usage.splitlines()), ".fi", ".SH DESCRIPTION"]
    for paragraph in description.strip().split("\n\n"):
        is_shown = all(line.startswith("  ") for line in paragraph.splitlines())
        lines += [".PP", *([".nf"] if is_shown else []), *map(escaped, paragraph.splitlines()), *([".fi"] if is_shown else [])]
    lines += [".SH OPTIONS", ".nf", *map(escaped, arguments.strip().splitlines()), ".fi"]
    lines += [".SH EXIT STATUS", ".nf", *map(escaped, codes.strip("\n").splitlines()), ".fi", ".SH SEE ALSO", ".BR lwaftr (1)"]
    return "\n".join(lines) + "\n"


def main():
    command, version, date = sys.argv[1:]
    it = subprocess.run([sys.executable, "-B", command, "--help"], capture_output=True, text=True, check=True, env={**os.environ, "COLUMNS": "100"})
    sys.stdout.write(page(os.path.basename(command), it.stdout, version, date))


if __name__ == "__main__":
    main()
