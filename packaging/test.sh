#!/bin/sh
# Makes the package, asks lintian, and installs, runs and removes it in a clean root made by mmdebstrap (as root, with a network).
#     packaging/test.sh [--stale] [ROOT]     ROOT: a clean root that is there already; --stale: as for deb.sh
set -eu
top=$(cd "$(dirname "$0")/.." && pwd)
work=$(mktemp -d)
trap 'rm -rf "$work"' EXIT
stale=
if [ "${1-}" = --stale ]; then
    stale=--stale
    shift
fi
package=$("$top/packaging/deb.sh" $stale "$work")
lintian --allow-root --tag-display-limit 0 "$package"
root=${1:-$work/root}
[ -d "$root" ] || mmdebstrap --quiet --variant=minbase --include=python3,tshark bookworm "$root"

# inside COMMAND..: in the root, without the variable that keeps Python from writing files
inside() {
    chroot "$root" env -u PYTHONDONTWRITEBYTECODE LC_ALL=C.UTF-8 "$@"
}

mkdir -p "$root/tmp/out"
cp "$package" "$root/tmp/out"
cp "$top"/examples/first/* "$top/packaging/walk.sh" "$root/tmp"
inside sh -c 'cd /tmp && DEBIAN_FRONTEND=noninteractive apt-get -o Dpkg::Use-Pty=0 install -y ./out/lwaftr_*_amd64.deb'
inside lwaftr --version
inside lwaftr --help | head -n 2
inside sh -c 'cd /tmp && lwaftr run in.pcap out.pcap verdicts.txt versions.txt t0.toml && cat verdicts.txt versions.txt'
for tool in "$root"/usr/bin/lwaftr-*; do
    inside "/usr/bin/${tool##*/}" --help > /dev/null
done
inside sh /tmp/walk.sh
inside dpkg --remove lwaftr 2>&1 | tee "$work/removed"
! grep -q 'not empty' "$work/removed"
[ ! -e "$root/usr/bin/lwaftr" ] && [ ! -e "$root/usr/lib/lwaftr" ] && [ ! -e "$root/usr/share/lwaftr" ]
echo "installed, run and removed"
