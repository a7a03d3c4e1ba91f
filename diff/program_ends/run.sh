#!/usr/bin/env bash
# How the program ends for its user: exit codes, standard error, standard output, and what the files hold, where
# files are missing, cannot be made or are full, and where standard output is full, closed or a pipe that nobody reads;
# what is written while a capture comes through a pipe that pauses; and captures and tables through pipes in pieces.
#     diff/program_ends/run.sh [PROGRAM]
# PROGRAM takes the words of `lwaftr`; without it the program of this repository is built. It prints a line for each case that
# goes otherwise, and the totals; it ends with 1 if there is such a case. messages.txt has what is said to people, word for word.
set -eu
here="$(cd "$(dirname "$0")" && pwd)"
top="$(cd "$here/../.." && pwd)"
program="${1:-}"
if [ -z "$program" ]; then
    program="$("$top/build" --program)"
fi
status=0
"$here/messages.py" "$program" || status=1
python3 "$here/ends.py" "$program" || status=1
python3 "$here/pauses.py" "$program" || status=1
python3 "$here/pieces.py" "$program" || status=1
exit $status
