#!/bin/sh
# Compiles a program without proving it and runs it: try.sh run|check|inspect|node FILE. Prints the program's own output.
here=$(CDPATH='' cd -- "$(dirname -- "$(readlink -f -- "$0")")/.." && pwd) || exit 1
case $1 in
    run | check | inspect) crate=fleet arguments=$1 ;;
    node) crate=fleet_node arguments= ;;
    -h | --help) echo "usage: try.sh run|check|inspect|node FILE"; exit ;;
    *) echo "usage: try.sh run|check|inspect|node FILE" >&2; exit 2 ;;
esac
input=$(readlink -f -- "$2") && [ -r "$input" ] || { echo "try.sh: cannot read $2" >&2; exit 2; }
command -v rt >/dev/null || { echo "try.sh: rt is not on the path; README.md says what is needed" >&2; exit 1; }
said=$(mktemp) || exit 1
trap 'rm -f "$said"' EXIT
echo "compiling $crate without proofs, which takes one to three minutes; then its output follows" >&2
(cd "$here/crates/$crate" && rt try -- $arguments) <"$input" 2>"$said"
status=$?
# rt's own lines come after the program's standard error.
grep -vE '^(checked|interpreted|races): |^run=' "$said" >&2
exit "$status"
