"""The frame of every tool: its options, its exit code, its messages, and the files that it writes."""
import argparse
import gc
import os
import sys

STANDARD_INPUT = "/dev/stdin"
DONE, REFUSED, UNUSABLE = 0, 1, 2
EXIT_CODES = """exit codes:
  0  done, and nothing differs
  1  something differs, or a table or list is refused
  2  the words of the command are wrong, a file cannot be read or written, or it is not of the kind that the tool reads"""


class Refused(Exception):
    """A table or list that says something wrong: exit code 1."""


class Unusable(Exception):
    """Wrong words, or a file of another kind: exit code 2."""


def readable(text):
    """The text with `?` in place of each character that a terminal would obey or could not show; line ends stay."""
    return "".join(it if it.isprintable() or it == "\n" else "?" for it in str(text))


def tool_name():
    return os.path.basename(sys.argv[0])


def warn(text):
    """A line on standard error, if it is open."""
    if sys.stderr is not None:
        try:
            print(readable(text), file=sys.stderr)
        except OSError:
            pass  # nobody reads it any more


def say(text):
    """A text on standard output."""
    if sys.stdout is None:
        raise Unusable("standard output is closed")
    sys.stdout.write(text)


class Parser(argparse.ArgumentParser):
    """A parser whose help ends with the exit codes, and whose errors are readable."""

    def __init__(self, description):
        super().__init__(description=description, epilog=EXIT_CODES, formatter_class=argparse.RawDescriptionHelpFormatter)

    def error(self, message):
        self.exit(UNUSABLE, readable(f"{self.format_usage()}{self.prog}: {message}\n"))

    def _print_message(self, message, file=None):
        if message and file is not None:
            file.write(message)


def source(word):
    """The path of an input; `-` is standard input."""
    return STANDARD_INPUT if word == "-" else word


def from_one(word):
    """A count of at least 1."""
    return _at_least(1, word)


def from_zero(word):
    """A count of at least 0."""
    return _at_least(0, word)


def _at_least(least, word):
    if not (word.isascii() and word.isdigit() and len(word) < 19) or int(word) < least:
        raise argparse.ArgumentTypeError(f"{word!r} is not a number from {least}")
    return int(word)


def _identity(path):
    """What a file is, under whatever name; None if it is no regular file, or not there."""
    try:
        found = os.fstat(1) if path == "-" else os.stat(path)
    except OSError:
        return None
    return (found.st_dev, found.st_ino) if os.path.stat.S_ISREG(found.st_mode) else None


def keep_apart(inputs, outputs):
    """Rejects an output that is an input or another output, under whatever name. Call it before a file is read."""
    seen = {_identity(path): path for path in inputs if path is not None}
    seen.pop(None, None)
    made = set()
    for path in outputs:
        if path is None:
            continue
        other = seen.get(_identity(path))
        if other is not None or os.path.realpath(path) in made:
            what = "standard output" if path == "-" else path
            raise Unusable(f"{what} is to be written, and it is {other or 'another output'} too; nothing was touched")
        made.add(os.path.realpath(path))
        if _identity(path):
            seen[_identity(path)] = path


def put(path, data):
    """Writes a text or bytes; `-` is standard output."""
    data = data.encode("utf-8") if isinstance(data, str) else data
    with open(1 if path == "-" else path, "wb", closefd=path != "-") as file:
        file.write(data)


def text_of(path, newline=None):
    """The text of a file in UTF-8, without a byte order mark."""
    is_standard = path == STANDARD_INPUT
    try:
        with open(0 if is_standard else path, encoding="utf-8-sig", newline=newline, closefd=not is_standard) as file:
            return file.read()
    except UnicodeDecodeError:
        raise Unusable(f"{path}: it is not a text in UTF-8") from None


def run(tool):
    """Runs a tool, and ends with its exit code. A failure is a message on standard error."""
    # a table is many small objects without cycles: do not look for cycles after every few hundred of them
    gc.set_threshold(1 << 20)
    for stream in (sys.stdout, sys.stderr):
        if stream is not None:
            stream.reconfigure(errors="backslashreplace")
    try:
        code = tool() or DONE
        if sys.stdout is not None:
            sys.stdout.flush()
    except BrokenPipeError:
        code = UNUSABLE
        os.dup2(os.open(os.devnull, os.O_WRONLY), 1)  # what is left in the buffer goes nowhere
    except Refused as error:
        code = _failed(error, REFUSED)
    except OSError as error:
        named = f"{error.filename}: " if error.filename is not None else ""
        code = _failed(f"{named}{error.strerror or error}", UNUSABLE)
    except Unusable as error:
        code = _failed(error, UNUSABLE)
    except KeyboardInterrupt:
        code = 130
    sys.exit(code)


def _failed(error, code):
    warn(f"{tool_name()}: {error}")
    return code
