#!/usr/bin/env bash
# Checks one law without building a crate: the crates below are read as source, and only the law's function is proved, with the definitions
# and lemmas that its proof cites. It takes about a minute from a fresh clone. It is no verdict on a crate: `rt check` and `rt ci` give that.
#     strength/law.sh CRATE LAW          checks the law, as strength/law.sh verdict_core others_stay
#     strength/law.sh EDIT..             tries edits of a definition; the edit's line `law: CRATE LAW` names the law that has to refuse it
# For an edit it prints 'refused' with the first errors, 'let through', or 'not applied'. It ends with 1 unless each law was proved, or each
# edit was refused. What it proves is kept in crates/CRATE/out/laws.
set -eu
top="$(cd "$(dirname "$0")/.." && pwd)"
kit="$(dirname "$(dirname "$(readlink -f "$(command -v rattle)")")")"

# The crates that a crate names in crates.txt.
named() { sed -n "s/^$1\( [^:]*\)\{0,1\}:\(.*\)/\2/p" "$2/crates.txt"; }

# The crates of the repository below a crate, each after those that it uses.
below() {
    local dep
    for dep in $(named "$1" "$2"); do
        if [ -d "$2/crates/$dep" ] && [[ " $found " != *" $dep "* ]]; then
            below "$dep" "$2"
            found="$found $dep"
        fi
    done
}

# Checks the law of the crate in the repository at that place, and keeps what it proves in a folder.
check_law() {
    local root="$1" crate="$2" law="$3" kept="$4" dep use words=() uses kits=core
    found=""
    below "$crate" "$root"
    for dep in $found; do
        uses=core,std
        for use in $(named "$dep" "$root"); do uses="$uses,$use"; done
        words+=(--lib "$dep:$uses=../$dep/src/lib.rt")
    done
    for dep in $found "$crate"; do
        for use in $(named "$dep" "$root"); do
            [ -d "$root/crates/$use" ] || kits="$kits $use"
        done
    done
    for use in $(printf '%s\n' $kits std | sort -u); do words+=(--extern "$use=$kit/rlibs/$use.rlib"); done
    mkdir -p "$kept"
    (cd "$root/crates/$crate" && rattle check --crate-name "$crate" src/lib.rt "${words[@]}" -L "dependency=$kit/rlibs" --antt-project \
        "$kit/rattle/logic/antt-project.json" --logic-built "$kit/logic_built" --incremental "$kept" --jobs 1 --only "$law")
}

# Makes the changes of an edit in the crate's folder; fails where an old text is not there once.
apply_edit() {
    python3 - "$1" "$2" <<'CHANGES'
import sys
edit, folder = sys.argv[1:]
path = old = None
for line in open(edit, encoding="utf-8").read().split("\n"):
    if line.startswith("file: "):
        path = f"{folder}/{line[6:].strip()}"
    elif line.startswith("old: "):
        old = line[5:]
    elif line.startswith("new:"):
        text = open(path, encoding="utf-8").read()
        if text.count(old) != 1:
            sys.exit(f"{edit}: the text is in {path} {text.count(old)} times: {old}")
        with open(path, "w", encoding="utf-8") as it:
            it.write(text.replace(old, line[4:].removeprefix(" ")))
CHANGES
}

if [ $# = 2 ] && [ -d "$top/crates/$1" ]; then
    check_law "$top" "$1" "$2" "$top/crates/$1/out/laws"
    exit
fi
[ $# -gt 0 ] || { sed -n '2,8p' "$0"; exit 2; }

status=0
for edit in "$@"; do
    edit="$(readlink -f "$edit")"
    edited="$(basename "$(dirname "$edit")")"
    label="$edited/$(basename "$edit")"
    read -r crate law < <(sed -n 's/^law: //p' "$edit") || { echo "$label: not applied: it has no line 'law: CRATE LAW'"; status=1; continue; }
    copy="$(mktemp -d /tmp/law.XXXXXX)"
    (cd "$top" && tar --exclude='crates/*/out' -cf - crates crates.txt) | tar -C "$copy" -xf -
    if ! apply_edit "$edit" "$copy/crates/$edited"; then
        echo "$label: not applied"
        status=1
    elif check_law "$copy" "$crate" "$law" "$top/crates/$crate/out/laws" > "$copy/told" 2>&1; then
        echo "$label: LET THROUGH by $crate::$law"
        status=1
    elif grep -q '^only=' "$copy/told"; then
        echo "$label: refused by $crate::$law"
        grep -m 3 ': error' "$copy/told" | cut -c 1-400
    else
        echo "$label: not tried"
        tail -n 3 "$copy/told"
        status=1
    fi
    rm -rf "$copy"
done
exit "$status"
