#!/bin/sh
# The program beside the second router; diff/run.py has the words.
exec python3 "$(dirname "$(readlink -f "$0")")/run.py" "$@"
