#!/bin/sh
# Runs hcproxy. The program's text is what is proved, so it says its release alone: from which commit it
# is, and whether it is the proved one, stands in a file.
program=/usr/lib/hcproxy/hcproxy
# one arena of glibc for all threads, as in the unit
export MALLOC_ARENA_MAX="${MALLOC_ARENA_MAX:-1}"
case $* in
  --version | -V)
    "$program" --version && grep -E '^(commit|proved|built) ' /usr/lib/hcproxy/BUILD
    ;;
  *) exec "$program" "$@" ;;
esac
