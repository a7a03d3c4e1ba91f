#!/usr/bin/env python3
"""Compares the READMEs of crates with the crates: every exported name, and every file of a crate of cases, is named there; the files of
cases and the benchmarks that a README names are there; a row on clauses has at most thirty words; each caller to copy stands word for word
in a crate of cases. Of these and all other pages each row has its table's columns, and each link leads to a file that is there, and to a
heading of it. Each text that an edit in must-fail/ or strength/ changes stands in its file once.

  docs/readmes.py [CRATE..]    prints what is not so, and ends with 1 where there is something; without CRATE of all of them and all pages
"""
import glob
import os
import re
import sys

TOP = os.path.dirname(os.path.dirname(os.path.realpath(__file__)))


def text_of(*path):
    try:
        with open(os.path.join(TOP, *path), encoding="utf-8") as it:
            return it.read()
    except OSError:
        return ""


def exports(crate):
    """The names that a crate hands out."""
    root = text_of("crates", crate, "src", "lib.rt")
    for line in re.findall(r"^pub use [a-z0-9_:]*?(?:\{(.*?)\}|([A-Za-z0-9_]+));", root, re.M | re.S):
        for name in re.findall(r"\w+", line[0] or line[1]):
            yield name


def files(crate):
    """The files of tests of a crate of cases."""
    folder = os.path.join(TOP, "crates", crate, "src")
    return sorted(it[:-3] for it in os.listdir(folder) if it.endswith(".rt") and it != "lib.rt")


def tried(readme):
    """The files of cases and the folders that a README says its crate is tried and measured by, and that are not there."""
    for line in re.findall(r"^Tried in .*$", readme, re.M):
        for cases, names in re.findall(r"`(\w+_cases)`: ((?:`\w+`(?:, )?)+)", line):
            for name in re.findall(r"\w+", names):
                if not os.path.isfile(os.path.join(TOP, "crates", cases, "src", f"{name}.rt")):
                    yield f"{cases}/{name}"
        for name in re.findall(r"`(diff/[\w.]+)`", line):
            if not os.path.exists(os.path.join(TOP, name)):
                yield name
        for name in re.findall(r"`(\w+)`", line.partition("Measured by")[2].replace("`bench/`", "")):
            if not os.path.isdir(os.path.join(TOP, "bench", name)):
                yield f"bench/{name}"


def long_rows(readme):
    """The rows on clauses that say more than thirty words."""
    for row in re.findall(r"^\|(?:[^|\n]*\|){3}$", readme, re.M):
        cells = [it.strip() for it in row.strip("|").split("|")]
        if len(cells[2].split()) > 30:
            yield f"a row of {len(cells[2].split())} words: {cells[2][:40]}.."


def columns(row):
    return len(re.findall(r"(?<!\\)\|", row)) - 1


def odd_rows(page):
    """The rows of a page that have not the columns of their table, and those that have no head."""
    for table in re.findall(r"^\|.*(?:\n\|.*)*", page, re.M):
        head, *rows = table.splitlines()
        if not rows or not re.fullmatch(r"\|(?::?-+:?\|)+", rows[0]):
            yield f"rows without a head: {head[:40]}.."
        for row in rows:
            if columns(row) != columns(head) or not row.endswith("|"):
                yield f"a row of {columns(row)} columns in a table of {columns(head)}: {row[:40]}.."


def without_blocks(page):
    """A page without its blocks of code."""
    return re.sub(r"^```.*?^```$", "", page, flags=re.M | re.S)


def anchors(page):
    """What a link may name of a page: its headings, in small letters and without signs, and numbered where one is there again."""
    found = []
    for heading in re.findall(r"^#+ +(.*?)\s*$", without_blocks(page), re.M):
        name = re.sub(r"[^\w -]", "", heading.lower()).replace(" ", "-")
        again = sum(re.fullmatch(rf"{re.escape(name)}(-\d+)?", it) is not None for it in found)
        found.append(f"{name}-{again}" if again else name)
    return found


def dead_links(path, page):
    """The links of a page whose file is not there, or has no such heading."""
    for link in re.findall(r"\]\(([^()\s]+)\)", re.sub(r"`[^`\n]*`", "", without_blocks(page))):
        name, _, anchor = link.partition("#")
        to = os.path.join(os.path.dirname(path), name) if name else path
        if ":" not in name and (not os.path.exists(os.path.join(TOP, to)) or anchor and anchor not in anchors(text_of(to))):
            yield f"a link that leads nowhere: {link}"


def misfits(crate):
    """The edits of a crate whose text is not once in its file."""
    for edit in sorted(glob.glob(f"crates/{crate}/must-fail/*.edit", root_dir=TOP) + glob.glob(f"strength/{crate}/*.edit", root_dir=TOP)):
        path, old, texts = "", "", {}
        for word, rest in re.findall(r"^(file|old|new): ?(.*)$", text_of(edit), re.M):
            path, old = (rest if word == "file" else path), (rest if word == "old" else old)
            if word == "new":
                text = texts.setdefault(path, text_of("crates", crate, path))
                if text.count(old) != 1:
                    yield f"{edit} fits {text.count(old)} times: {old[:40]}.."
                texts[path] = text.replace(old, rest)


def other_pages():
    """The pages that are of no crate."""
    return sorted(it for of in ("*.md", "docs/*.md", "*/README.md", "tools/*/README.md") for it in glob.glob(of, root_dir=TOP))


def lines_of(text):
    """The lines of a text, without the blanks at their ends."""
    return "\n".join(it.rstrip() for it in text.strip("\n").splitlines())


def callers():
    """The files of callers, which the crates of cases compile, prove and run."""
    crates = sorted(os.listdir(os.path.join(TOP, "crates")))
    return [lines_of(text_of("crates", it, "src", "callers.rt")) for it in crates if it.endswith("_cases")]


def uncompiled(readme, compiled):
    """The callers to copy of a README that no file of callers has."""
    section = re.search(r"^## A caller to copy\n(.*?)(?=^## |\Z)", readme, re.M | re.S)
    for block in re.findall(r"^```rust\n(.*?)^```$", section[1] if section else "", re.M | re.S):
        if not any(f"\n{lines_of(block)}\n" in f"{text}\n" for text in compiled):
            yield f"a caller that no `callers.rt` has: {block.splitlines()[0][:60]}"


def main():
    lacking = 0
    compiled = callers()
    for crate in sys.argv[1:] or sorted(os.listdir(os.path.join(TOP, "crates"))):
        readme = text_of("crates", crate, "README.md")
        names = files(crate) if crate.endswith("_cases") else list(exports(crate))
        missing = [it for it in names if not re.search(rf"\b{it}\b", readme)]
        missing += [*tried(readme), *long_rows(readme), *uncompiled(readme, compiled)]
        missing += [*odd_rows(readme), *dead_links(f"crates/{crate}/README.md", readme), *misfits(crate)]
        if missing:
            lacking += len(missing)
            print(f"{crate}: {' '.join(missing)}")
    for path in [] if sys.argv[1:] else other_pages():
        page = text_of(path)
        missing = [*odd_rows(page), *dead_links(path, page)]
        if missing:
            lacking += len(missing)
            print(f"{path}: {' '.join(missing)}")
    return 1 if lacking else 0


if __name__ == "__main__":
    sys.exit(main())
