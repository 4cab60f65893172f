#!/usr/bin/env bash
# Runs the program with the words as given, and builds it first where it is missing or older than its sources.
program=$("$(dirname "${BASH_SOURCE[0]}")/.ci/program") || exit 1
exec "$program" "$@"
