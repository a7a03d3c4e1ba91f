#!/bin/sh
# Makes lwaftr_VERSION_amd64.deb of the released program.
usage='usage: packaging/deb.sh [--stale] [FOLDER]
Makes lwaftr_VERSION_amd64.deb of the program in release/, in FOLDER (out/), and prints its path.
  --stale   also if release/ is not of the sources that are there now, to try the package
  --help    print this'
set -eu
top=$(cd "$(dirname "$0")/.." && pwd)
is_stale_allowed=
to=$top/out
while [ $# -gt 0 ]; do
    case $1 in
    --help | -h) echo "$usage"; exit ;;
    --stale) is_stale_allowed=yes ;;
    -* | '') echo "deb.sh: unknown option '$1'" >&2; echo "$usage" >&2; exit 2 ;;
    *) to=$1 ;;
    esac
    shift
done
if [ -z "$is_stale_allowed" ] && ! "$top/build" --check > /dev/null; then
    echo "deb.sh: release/ is not of the sources that are there now: run ./build --release, or give --stale to try the package" >&2
    exit 1
fi
version=$("$top/lwaftr" --version | cut -d ' ' -f 2)
# The time of the last commit stands in the package, so that the same sources give the same bytes.
SOURCE_DATE_EPOCH=$(git -C "$top" log -1 --format=%ct 2> /dev/null || date +%s)
export SOURCE_DATE_EPOCH
day=$(date -u -d "@$SOURCE_DATE_EPOCH" +%Y-%m-%d)
tree=$(mktemp -d)
trap 'rm -rf "$tree"' EXIT

# put MODE FILE TO: a file of the repository, with the version and the day in their places
put() {
    mkdir -p "$tree/$(dirname "$3")"
    sed "s/@VERSION@/$version/; s/@DATE@/$day/" "$top/$2" > "$tree/$3"
    chmod "$1" "$tree/$3"
}

# The tools, and what a page calls them once they are installed: lwaftr-from-csv for tools/from_csv.py.
tools='why compare report from_csv from_snabb from_vpp from_yang to_snabb to_vpp to_yang to_b4 diff_tables ports who_at'
commands='s#tools/lwaftr\.lua#/usr/share/lwaftr/lwaftr.lua#g; s#tools/NAME\.py#lwaftr-NAME#g'
for tool in $tools; do
    commands="$commands; s#tools/$tool\.py#lwaftr-$(echo $tool | tr _ -)#g; s#\`$tool\.py\`#\`lwaftr-$(echo $tool | tr _ -)\`#g"
done

# page FILE: a page of docs/, with commands, tools, samples and examples by the names that they are installed under, and without what it
# says of the repository alone
page() {
    put 644 "docs/$1" "usr/share/doc/lwaftr/$1"
    sed -i -e '/^The script `\.\/lwaftr` exits with 70/d' -e 's|From the top of the repository, with|With|' -e 's| (\[[a-z]*\](\.\./[^)]*))||g' \
        -e 's|\./lwaftr|lwaftr|g' -e 's|tools/samples|/usr/share/doc/lwaftr/examples|g' -e 's|examples/first|/usr/share/doc/lwaftr/&|g' \
        -e "$commands" "$tree/usr/share/doc/lwaftr/$1"
}

mkdir -p "$tree/DEBIAN" "$tree/usr/lib/lwaftr/tools/lwaftr_tools" "$tree/usr/share/lwaftr"
install -m 755 "$top/release/lwaftr" "$tree/usr/lib/lwaftr/lwaftr"
put 755 packaging/lwaftr usr/bin/lwaftr
"$top/lwaftr" --help > "$tree/usr/share/lwaftr/help"
sed -i 's|docs/FORMATS.md|/usr/share/doc/lwaftr/FORMATS.md|' "$tree/usr/share/lwaftr/help"
mkdir -p "$tree/usr/bin" "$tree/usr/share/man/man1"
for tool in $tools; do
    name=lwaftr-$(echo $tool | tr _ -)
    put 755 tools/$tool.py usr/lib/lwaftr/tools/$tool.py
    # -B: a tool that root runs leaves no files that the package does not know
    sed -i -e '1s|.*|#!/usr/bin/python3 -B|' -e "$commands" "$tree/usr/lib/lwaftr/tools/$tool.py"
    ln -s ../lib/lwaftr/tools/$tool.py "$tree/usr/bin/$name"
done
mkdir -p "$tree/usr/lib/lwaftr/tools/lwaftr_tools/web"
install -m 644 "$top"/tools/lwaftr_tools/*.py "$tree/usr/lib/lwaftr/tools/lwaftr_tools"
install -m 644 "$top"/tools/lwaftr_tools/web/* "$tree/usr/lib/lwaftr/tools/lwaftr_tools/web"
for tool in $tools; do
    name=lwaftr-$(echo $tool | tr _ -)
    python3 "$top/packaging/manual.py" "$tree/usr/bin/$name" "$version" "$day" > "$tree/usr/share/man/man1/$name.1"
    chmod 644 "$tree/usr/share/man/man1/$name.1"
done
put 644 tools/lwaftr.lua usr/share/lwaftr/lwaftr.lua
put 644 packaging/lwaftr.bash usr/share/bash-completion/completions/lwaftr
put 644 packaging/lwaftr.zsh usr/share/zsh/vendor-completions/_lwaftr
put 644 packaging/lwaftr.fish usr/share/fish/vendor_completions.d/lwaftr.fish
put 644 packaging/lwaftr.1 usr/share/man/man1/lwaftr.1
page FORMATS.md
page OPERATING.md
put 644 release/NOTICES usr/share/doc/lwaftr/NOTICES
mkdir -p "$tree/usr/share/doc/lwaftr/examples/first"
install -m 644 "$top"/tools/samples/* "$tree/usr/share/doc/lwaftr/examples"
install -m 644 "$top/examples/first/in.pcap" "$top/examples/first/t0.toml" "$tree/usr/share/doc/lwaftr/examples/first"
{
    printf 'Format: https://www.debian.org/doc/packaging-manuals/copyright-format/1.0/\nUpstream-Name: lwaftr\n\n'
    printf 'Files: *\nCopyright: 2026 Ciddavera maintainers\nLicense: Expat or Apache-2.0\nComment: NOTICES has the licences of the libraries that are linked in.\n\n'
    printf 'Files: usr/lib/lwaftr/tools/lwaftr_tools/web/chart.min.js\nCopyright: 2014-2022 Chart.js Contributors, 2018-2022 Jukka Kurkela\nLicense: Expat\n\n'
    printf 'License: Expat\n'
    sed '1,2d; s/^$/./; s/^/ /' "$top/LICENSE-MIT"
    printf '\nLicense: Apache-2.0\n On Debian systems the text stands in /usr/share/common-licenses/Apache-2.0.\n'
} > "$tree/usr/share/doc/lwaftr/copyright"
printf 'lwaftr (%s) unstable; urgency=medium\n\n  * The program of this version.\n\n -- Ciddavera maintainers <maintainers@users.noreply.ciddavera.example>  %s\n' \
    "$version" "$(date -u -R -d "@$SOURCE_DATE_EPOCH")" > "$tree/usr/share/doc/lwaftr/changelog"
gzip -9n "$tree/usr/share/doc/lwaftr/changelog" "$tree"/usr/share/man/man1/*.1
# The program is that of release/, byte for byte, so it keeps its symbols.
mkdir -p "$tree/usr/share/lintian/overrides"
echo 'lwaftr: unstripped-binary-or-object [usr/lib/lwaftr/lwaftr]' > "$tree/usr/share/lintian/overrides/lwaftr"
chmod 644 "$tree/usr/share/lintian/overrides/lwaftr"
find "$tree" -name __pycache__ -prune -exec rm -rf {} +
find "$tree" -type d -exec chmod 755 {} +
chmod 644 "$tree"/usr/share/lwaftr/help "$tree"/usr/share/doc/lwaftr/copyright
cat > "$tree/DEBIAN/control" <<C
Package: lwaftr
Version: $version
Architecture: amd64
Maintainer: Ciddavera maintainers <maintainers@users.noreply.ciddavera.example>
Installed-Size: $(du -sk "$tree/usr" | cut -f 1)
Depends: libc6 (>= 2.34)
Recommends: python3 (>= 3.9)
Suggests: python3-matplotlib, tcpdump, tshark
Section: net
Priority: optional
Description: border router of Lightweight 4over6 over captures, proved
 The provider's border router (lwAFTR) of Lightweight 4over6 (RFC 7596): many
 subscribers share one public IPv4 address, and a binding table says who owns
 which ports. It reads a capture and writes a capture of what the router would
 send, with a line for each record; it forwards nothing live.
 .
 With it come tools that convert tables of other routers, compare tables and
 captures, explain and report what was dropped, and configure subscribers.
C
(cd "$tree" && find usr -type f -exec md5sum {} + | LC_ALL=C sort -k 2 > DEBIAN/md5sums)
chmod 644 "$tree/DEBIAN/control" "$tree/DEBIAN/md5sums"
mkdir -p "$to"
dpkg-deb --root-owner-group -Zxz --build "$tree" "$to/lwaftr_${version}_amd64.deb" > /dev/null
echo "$to/lwaftr_${version}_amd64.deb"
