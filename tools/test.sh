#!/bin/sh
# Runs the tests of the tools.
#     LWAFTR=PROGRAM tools/test.sh [-v] [-k NAME]...     PROGRAM: the program that the tools run (./lwaftr); NAME: a part of the names of tests
# The system's Python is asked first, since it may have matplotlib.
here=$(dirname "$(readlink -f "$0")")
[ -z "${LWAFTR-}" ] || export LWAFTR="$(readlink -f "$LWAFTR")"
for python in /usr/bin/python3 python3; do
    if "$python" -c 'import sys; sys.exit(sys.version_info < (3, 9))' 2> /dev/null; then
        exec "$python" -B -m unittest discover -s "$here/tests" "$@"
    fi
done
echo "tools/test.sh: no Python of 3.9 or later" >&2
exit 2
