#!/usr/bin/env bash
# What is checked beside the test command: that the documents agree with the tree, and that the built
# program keeps what it acknowledged where folders are spoilt, a disk is full or it is killed, answers
# random scripts by the rules of sessions, and is understood by a POP3 client.
#
# Usage: bench/check.sh [PROGRAM [DIRECTORY]]
#
# PROGRAM is the built binary, crates/sdbox/out/sdbox; without it only the documents are compared.
# Folders are made in DIRECTORY, or in the system's place for temporary files. Each part is run
# whatever the others found; the status is 1 where one of them found something.
set -uo pipefail
bench=$(dirname "$0")
status=0

check() {
    echo "== $1"
    "$bench/$@" || status=1
}

check documents.py
if [ $# -gt 0 ]; then
    program=$1
    shift
    check hostile.py "$program" "$@"
    check full.py "$program" "$@"
    check kill.py "$program" 20 "$@"
    check rules.py "$program" 20 1 "$@"
    check stress.py "$program" 20 1 "$@"
    check pop3.py "$program" 1 "$@"
fi
exit "$status"
