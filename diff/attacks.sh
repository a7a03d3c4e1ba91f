#!/bin/sh
# Captures that cost as much as they can; diff/attacks.py has the words.
exec python3 "$(dirname "$(readlink -f "$0")")/attacks.py" "$@"
