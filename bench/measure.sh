#!/bin/sh
# Measures a served node on this machine, and prints the rows of docs/PERFORMANCE.md, "The served node".
# bench/measure.sh [PROGRAM [SECONDS [DISK [MEMORY]]]]: the built program, how long each row runs, a folder on a real disk for the
# rates, and one in memory for the long log, where syncs cost nothing. Needs cc and python3, and a machine that does nothing else.
exec python3 "$(dirname "$0")/measure.py" "$@"
