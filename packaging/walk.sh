#!/bin/sh
# A walk with the package alone, by the commands of its page OPERATING.md: a table from each form, checked, compared with yesterday's, replayed;
# a drop found, and its packet opened; the subscriber's side made; who had it last week. packaging/test.sh runs it in a clean root with tshark.
set -eu
documents=/usr/share/doc/lwaftr
folder=$(mktemp -d)
trap 'rm -rf "$folder"' EXIT
cd "$folder"

# fail TEXT..
fail() {
    echo "walk.sh: $*" >&2
    exit 1
}

# expect CODE COMMAND: runs a command line, shows it and what it prints, and keeps that in `said`
expect() {
    echo "\$ $2"
    code=0
    eval "$2" > said 2>&1 || code=$?
    cat said
    [ "$code" = "$1" ] || fail "exit code $code, and $1 is expected"
}

# of_page CODE TEXT: runs the first command of the page that holds a text
of_page() {
    line=$(grep '^    ' "$documents/OPERATING.md" | grep -F -m 1 -e "$2") || fail "the page has no command with '$2'"
    expect "$1" "${line#    }"
}

# has TEXT: the last command printed it
has() {
    grep -q -F -e "$1" said || fail "'$1' is not printed"
}

# a table from each form
of_page 0 'lwaftr-from-csv '
of_page 0 'lwaftr-from-snabb '
of_page 0 'lwaftr-from-vpp '
of_page 0 'lwaftr-from-yang '

# checked: each of them, and all have the same subscribers with the same ports
of_page 0 'lwaftr check table.toml'
for table in table snabb vpp yang; do
    expect 0 "lwaftr check $table.toml"
    has 'valid 3 bindings'
    expect 0 "lwaftr-diff-tables table.toml $table.toml --json | grep -c '\"change\"' | grep -x 0"
done

# compared with yesterday's: today one subscriber has another set
sed 's/psid = 53/psid = 54/' table.toml > new.toml
of_page 1 'lwaftr-diff-tables table.toml new.toml'
has 'loses ports: '
has '2001:db8:1::2: loses 252 ports'

# replayed
of_page 0 'cp '
of_page 0 'lwaftr run in.pcap out.pcap verdicts.txt'
has 'records 22 held 0 forwarded 21 dropped 1 packets 21 version 0'

# a drop found
of_page 0 'lwaftr-report verdicts.txt versions.txt --in in.pcap --table table.toml --html report.html'
has 'tunnel from 2001:db8:1::2: no-binding 1'
grep -q '<title>lwaftr: in.pcap</title>' report.html
of_page 0 'lwaftr-why in.pcap table.toml 20'
has "why: its owner's tunnel ends at 2001:db8:1::1, it came from 2001:db8:1::2"

# its packet opened
of_page 0 'lwaftr.rule == "no-binding"'
expect 0 'tshark -r part.pcap'
[ "$(grep -c -F '203.0.113.1 → 198.51.100.7' said)" = 1 ] || fail 'not one packet is in part.pcap'
expect 0 'tshark -r part.pcap -V'
has 'Source Address: 2001:db8:1::2'

# the subscriber's side
of_page 0 'lwaftr-to-b4 table.toml option'
has '2001:db8:1::1 0060'
of_page 0 'duids.csv'
of_page 0 'lwaftr-to-b4 table.toml kea'
of_page 0 'lwaftr-to-b4 table.toml uci'
of_page 0 'lwaftr-to-b4 table.toml nft'
expect 0 'cat reservations.json network rules.nft'
has '"ip-addresses": ["2001:db8:1::1"]'
has "option psid '52'"
has 'numgen inc mod 63 map { 0 : 203.0.113.1 . 1232-1235'

# who had it last week, and whose ports are which
of_page 0 'questions.csv'
of_page 0 'lwaftr-who-at questions.csv 2026-11-01=table.toml'
has '203.0.113.1,1232,2001:db8:1::1,table.toml'
of_page 0 'lwaftr who table.toml'
has '2001:db8:1::1'
of_page 0 'lwaftr-ports table.toml --ipv4'
has 'free with offset 6, length 8: 254 of 256 sets'
echo 'walked'
