"""The table of results: what is checked, and figures by which nothing is judged."""
import time

OK, FAILS, INFO = "ok", "FAILS", "info"
begun = time.time()
rows, group = [], ""


def note(text):
    """A line for who watches."""
    print(f"[{time.time() - begun:6.1f}] {text}", flush=True)


def begin_group(name):
    global group
    group = name
    note(f"== {name}")


def check(name, expected, seen, good):
    """A line that holds or fails."""
    state = OK if good else FAILS
    rows.append((group, state, name, str(expected), str(seen)))
    note(f"{state:5} {name}: expected {expected}; seen {seen}")


def info(name, seen):
    """A figure."""
    rows.append((group, INFO, name, "-", str(seen)))
    note(f"{INFO:5} {name}: {seen}")


def failures(of=None):
    """How many checks fail, of all groups or of one."""
    return sum(1 for row in rows if row[1] == FAILS and of in (None, row[0]))


def count(state):
    return sum(1 for row in rows if row[1] == state)


def write(folder):
    """The table as text and as Markdown."""
    lines, last = [], None
    for name, state, *words in rows:
        if name != last:
            lines.append(f"== {name}")
            last = name
        lines.append(f"  {state:5} | " + " | ".join(word.replace("\n", " ") for word in words))
    lines.append(f"\n{count(OK)} checks ok, {count(FAILS)} fail, {count(INFO)} figures; {time.time() - begun:.0f} s")
    with open(f"{folder}/table.txt", "w") as file:
        file.write("\n".join(lines) + "\n")
    with open(f"{folder}/table.md", "w") as file:
        file.write("| group | state | check | expected | seen |\n|---|---|---|---|---|\n")
        for row in rows:
            file.write("| " + " | ".join(word.replace("|", "/").replace("\n", " ") for word in row) + " |\n")
