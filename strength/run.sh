#!/usr/bin/env bash
# Tries the wrong bodies of strength/NAME/*.edit, which the gate does not try, on a copy of the repository: the check has to
# refuse each. It begins with what earlier checks on this machine kept, and proves the rest first.
#     strength/run.sh [NAME..]
# It prints a line for each edit and the totals:
#     refused                     the crate's contracts or proofs refuse it for what it means
#     refused at a limit          the prover gave up: this says less of the contract
#     refused for a name alone    a proof cites a name that the edit took away: this says nothing of the contract
#     let through                 the crate is still proved: a contract is too weak, or the edit means the same as before
#     not applied                 its text is not there once, does not compile, or was not tried
# It ends with 1 where one was let through or not applied, or where a crate is not proved as it stands.
set -eu
top="$(cd "$(dirname "$0")/.." && pwd)"
copy="$(mktemp -d /tmp/strength.XXXXXX)"
trap 'rm -rf "$copy"' EXIT

(cd "$top" && tar --exclude='crates/*/out' -cf - crates crates.txt HANDLES) | tar -C "$copy" -xf -
cd "$copy"
rm -rf crates/*/must-fail

# The crates that are asked for, the lowest first.
names=()
for name in $(sed -n 's/^\([a-z0-9_]*\)[ :].*/\1/p' crates.txt); do
    if [ -d "$top/strength/$name" ] && { [ $# = 0 ] || [[ " $* " == *" $name "* ]]; }; then
        names+=("$name")
    fi
done
for name in "$@"; do
    [[ " ${names[*]} " == *" $name "* ]] || { echo "$name has no edits in strength/, or is no crate"; exit 1; }
done

bad=0
proved=()
for name in "${names[@]}"; do
    if (cd "crates/$name" && rt check) > "$name.check" 2>&1; then
        cp -r "$top/strength/$name" "crates/$name/must-fail"
        proved+=("$name")
    else
        echo "$name: not proved as it stands, so its edits show nothing"
        tail -n 5 "$name.check"
        bad=1
    fi
done
[ ${#proved[@]} = 0 ] || rt must-fail "${proved[@]}" > told 2>&1 || true

declare -A count
for name in "${proved[@]}"; do
    for edit in "crates/$name/must-fail"/*.edit; do
        label="$name/$(basename "$edit")"
        told="$(grep -m 1 -F "must-fail $label: " told || true)"
        case "$told" in
            *": refused, as it must be (only because a proof file names "*) kind="refused for a name alone" ;;
            *": refused, as it must be (only by a limit "*) kind="refused at a limit" ;;
            *": refused, as it must be"*) kind="refused" ;;
            *": NOT REFUSED"*) kind="let through" ;;
            *) kind="not applied" ;;
        esac
        echo "$label: $kind"
        count[$kind]=$((${count[$kind]:-0} + 1))
        case "$kind" in
            "let through" | "not applied")
                echo "    ${told:-rt must-fail says nothing of it}"
                bad=1
                ;;
        esac
    done
done

totals="strength:"
for kind in "refused" "refused at a limit" "refused for a name alone" "let through" "not applied"; do
    totals="$totals ${count[$kind]:-0} $kind,"
done
echo "${totals%,}, in ${#proved[@]} crates"
exit $bad
