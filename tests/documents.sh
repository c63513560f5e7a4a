#!/bin/bash
# Checks that the documents say what the sources have, and that both keep the rules of the house: one line a check.
# Usage: tests/documents.sh [CHECK ..]
#        tests/documents.sh command NAME    which of CONTRIBUTING's places lack this command
#        tests/documents.sh --write         writes docs/reference/, and what is made in other pages
cd "$(dirname "$0")" || exit 2
PYTHONUTF8=1 PYTHONDONTWRITEBYTECODE=1 exec python3 documents.py "$@"
