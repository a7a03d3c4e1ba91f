#!/usr/bin/env bash
# Which program ./lwaftr runs: the one built here, the released one, or none before it has built one. It tries them in a copy of the
# repository in which the two programs print their names and ./build makes its one at once, so it takes seconds and proves nothing.
#     bench/first_answer/run.sh
# It prints a line for each case that goes otherwise, and the totals; it ends with 1 if there is such a case.
set -u
top="$(cd "$(dirname "$0")/../.." && pwd)"
copy=$(mktemp -d)
trap 'rm -rf "$copy"' EXIT
cases=0
otherwise=0

# A new copy of what is tracked, with a release of its sources.
anew() {
    rm -rf "$copy/lwaftr"
    mkdir "$copy/lwaftr"
    (cd "$top" && git ls-files -z --cached --others --exclude-standard | xargs -0 tar -cf - 2> /dev/null) | tar -xf - -C "$copy/lwaftr"
    cd "$copy/lwaftr" || exit 1
    printf '#!/bin/sh\necho "released $*"\n' > release/lwaftr
    printf '#!/bin/sh\nmkdir -p out\nprintf "#!/bin/sh\\necho built\\n" > out/lwaftr\nchmod +x out/lwaftr\nsh -c ". release/sources.sh; sources" > out/SOURCES\n' > build
    chmod +x release/lwaftr build
    sh -c '. release/sources.sh; sources' > release/SOURCES
    find . -exec touch -h -d '2020-01-01' {} +
}

# The words that follow the name of the case run; what they print is wanted.
says() {
    local name="$1" wanted="$2" said
    shift 2
    cases=$((cases + 1))
    said=$("$@" 2>&1)
    if [ "$said" != "$wanted" ]; then
        otherwise=$((otherwise + 1))
        printf '%s: wanted "%s", got "%s"\n' "$name" "$wanted" "$said"
    fi
}

settle() { sleep 2.1; ./lwaftr > /dev/null 2>&1; }

anew
says 'a clean clone' 'released a b' ./lwaftr a b
settle
says 'with a stamp' 'released a b' ./lwaftr a b
says 'from another folder' 'released ' sh -c "cd / && '$copy/lwaftr/lwaftr'"
ln -s "$copy/lwaftr/lwaftr" "$copy/link"
says 'by a link' 'released ' "$copy/link"
says 'the version' "lwaftr $(sed -n 's/^pub const VERSION: &str = "\(.*\)";/\1/p' crates/aftr_text/src/help.rt)" ./lwaftr --version
for word in --help -h help; do
    says "$word" "$(sed -n '/^pub const HELP/,/^";/{//!p}' crates/aftr_text/src/help.rt)" ./lwaftr "$word"
done
echo '// more' >> crates/lwaftr_main/src/main.rt
says 'a source changed' built ./lwaftr
anew && settle
file=crates/ip_codec/src/rules.rt
tr 'a-y' 'b-z' < "$file" > "$copy/other" && touch -r "$file" "$copy/other" && cp -p "$copy/other" "$file"
says 'a source replaced, of the same size and time' built ./lwaftr
for change in 'rm crates/ip_codec/specs/Lib.antt' 'mv crates/ip_codec/src/rules.rt crates/ip_codec/src/rule.rt' \
    'touch crates/ip_codec/proofs/New.antt' 'sed -i s/arrayvec// crates.txt' 'echo > HANDLES' 'rm -r crates/ip_codec/proofs'; do
    anew && settle
    sh -c "$change"
    says "$change" built ./lwaftr
done
for change in 'echo >> README.md' 'echo >> crates/ip_codec/README.md' 'echo >> crates/codec_cases/src/lib.rt' \
    'rm -r crates/ip_codec/must-fail' 'rm -r strength docs bench'; do
    anew && settle
    sh -c "$change"
    says "$change" 'released ' ./lwaftr
done
anew && settle
cp crates/lwaftr_main/src/main.rt "$copy/main.rt"
echo '// more' >> crates/lwaftr_main/src/main.rt
./lwaftr > /dev/null
says 'built here' built ./lwaftr
cp "$copy/main.rt" crates/lwaftr_main/src/main.rt
says 'the sources of the release again' 'released ' ./lwaftr
anew
touch out
says 'where no stamp can be kept' 'released ' ./lwaftr
echo '// more' >> crates/lwaftr_main/src/main.rt
says 'where none can be built' "lwaftr: it could not be built; see $copy/lwaftr/out/build.log" sh -c './lwaftr 2>&1 | tail -n 1'
wanted=$(sed -n '/^## The commands/,/^|/s/^    \(lwaftr .*\)/\1/p' "$top/docs/FORMATS.md")
says 'the commands of FORMATS and of HELP' "$wanted" sh -c "'$top/lwaftr' --help | grep -E '^lwaftr (run|check|who|demo|migrate) '"
echo "$otherwise of $cases go otherwise"
[ "$otherwise" -eq 0 ]
