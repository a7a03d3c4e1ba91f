#!/bin/sh
# Programs with one line changed, found by the second router; diff/changes.py has the words.
exec python3 "$(dirname "$(readlink -f "$0")")/changes.py" "$@"
