#!/bin/sh
# Kills a node again and again while clients write, and looks for each acknowledged row after each restart.
# tests/kill.sh [ROUNDS [CONNECTIONS]]: 50 rounds and 16 connections, if not said otherwise. Needs python3 and the built program.
exec python3 "$(dirname "$0")/kill.py" "${1:-50}" "${2:-16}" "${3:-}"
