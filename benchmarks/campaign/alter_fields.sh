#!/bin/sh
# Alters single fields of the trace of the program in interpreter/machine/, and holds the program's answers to foretold ones:
# alter_fields.sh [PROGRAM] [options of alter_fields.py]. The program is bin/rvjudge, or the one given.
set -eu
here=$(cd "$(dirname "$0")" && pwd)
program=$here/../../bin/rvjudge
case ${1:-} in
    "" | -*) ;;
    *) program=$1 && shift ;;
esac
folder=$(mktemp -d)
trap 'rm -rf "$folder"' EXIT
sh "$here/../interpreter/machine/make.sh" "$folder" >/dev/null
"$program" >/dev/null || true
python3 "$here/alter_fields.py" "$folder/image" "$folder/trace" "$program" --io 0x10000000:0x1000 "$@"
