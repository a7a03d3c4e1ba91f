#!/bin/sh
# Captures of others beside the second router; diff/field.py has the words.
exec python3 "$(dirname "$(readlink -f "$0")")/field.py" "$@"
