#!/usr/bin/env python3
"""A table from a list with the columns ipv4, offset, length, psid, b4.

The first row that is neither blank nor a comment may name the columns, in any order; names as `PSID offset` or `B4 address` are understood,
and others are rejected. Without such a row the columns are the five in this order. Blank lines and lines that begin with # are passed over.
Numbers are written as 52 or 0x34. The program judges the table: if it is refused, the line of the list is named and nothing is written."""
import csv
import io
import re

from lwaftr_tools import addresses, command, converting, tables

COLUMNS = ("ipv4", "offset", "length", "psid", "b4")
# the names that a column may have, without case, blanks, `-` and `_`
NAMES = {
    "ipv4": ("ipv4", "address", "ipv4address", "ipv4addr", "publicipv4", "bindingipv4addr"),
    "offset": ("offset", "psidoffset", "abits", "reservedportsbitcount"),
    "length": ("length", "psidlength", "psidlen"),
    "psid": ("psid", "portsetid"),
    "b4": ("b4", "b4address", "b4ipv6", "tunnel", "bindingipv6info"),
}


def is_row_of_names(words):
    """Whether no word is a number or an address, or was meant as one."""
    return all(word[:1].isalpha() and "." not in word and ":" not in word for word in words)


def order_of(words):
    """For each of COLUMNS its place in a row of names."""
    places = {}
    for place, word in enumerate(words):
        plain = re.sub(r"[\s_-]", "", word.lower())
        column = next((it for it in COLUMNS if plain in NAMES[it]), None)
        if column is None:
            raise ValueError(f"the column {word!r} is not known; the columns are {', '.join(COLUMNS)}")
        if column in places:
            raise ValueError(f"two columns are named as {column}")
        places[column] = place
    missing = [it for it in COLUMNS if it not in places]
    if missing:
        raise ValueError(f"no column is named {', '.join(missing)}")
    return [places[it] for it in COLUMNS]


def binding(words, order):
    if len(words) != len(COLUMNS):
        raise ValueError(f"columns here: {len(words)}, wanted: {len(COLUMNS)} ({','.join(COLUMNS)})")
    ipv4, offset, length, psid, b4 = (words[place] for place in order)
    number = converting.number
    return tables.Binding(addresses.ipv6(b4), addresses.ipv4(ipv4), number("offset", offset), number("length", length), number("psid", psid))


def bindings(text, file):
    """Each binding with its line."""
    rows, order = csv.reader(io.StringIO(text, newline="")), None
    try:
        for row in rows:
            words = [it.strip() for it in row]
            if not any(words) or words[0].startswith("#"):
                continue
            if order is None and is_row_of_names(words):
                order = order_of(words)
                continue
            order = order or range(len(COLUMNS))
            yield rows.line_num, binding(words, order)
    except (ValueError, csv.Error) as error:
        raise converting.SourceError(file, rows.line_num, error) from None


def main():
    words = converting.parsed(converting.settings(converting.parser(__doc__, "LIST.csv")))
    found = list(bindings(command.text_of(words.file, newline=""), words.file))
    converting.put_table(words, converting.softwire(words, {}), found)


if __name__ == "__main__":
    command.run(main)
