#!/bin/sh
# Every fault over five jobs; diff/faults.py has the words.
exec python3 "$(dirname "$(readlink -f "$0")")/faults.py" "$@"
