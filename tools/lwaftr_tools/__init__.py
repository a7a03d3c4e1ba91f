"""What the tools share."""
import sys

if sys.version_info < (3, 9):
    sys.exit(f"this tool needs Python 3.9 or later; this is {sys.version.split()[0]}")
