#!/bin/sh
# Tries what bin/ tells a person: words_test.sh PROGRAM, the judge itself. words_test.py tries the
# words and the reasons for those that are refused.
set -u
bin=$(cd "$(dirname "$(readlink -f "$0")")/../../bin" && pwd) || exit 1
program=$(readlink -f "$1")
folder=$(mktemp -d) || exit 1
trap 'rm -rf "$folder"' EXIT
failed=0
. "$bin/run_judge.sh"

fail() {
    echo "contrib: FAILED: words: $*" >&2
    failed=1
}

cd "$folder" || exit 1
printf '@80000000 93 00 50 00' >i
printf 'insn,pc_rdata,rd_addr,rd_wdata\n0x00500093,0x80000000,1,5\n' >t
cp i ./-i
# shellcheck disable=SC2034  # run_judge.sh reads it
usage_file=$bin/usage.txt

# What is told, and that the judge's line and status stay.
tell_version() { echo 'version of the test'; }
expect_told() {
    wanted_status=$1 wanted_line=$2 wanted_told=$3
    shift 3
    (run_judge 1 "$program" "$@") >said 2>told
    code=$?
    [ "$code" -eq "$wanted_status" ] || fail "$*: status $code"
    [ "$(cat said)" = "$wanted_line" ] || fail "$*: printed $(cat said)"
    [ -z "$wanted_told" ] || grep -qF -e "$wanted_told" told || fail "$*: told $(cat told)"
}
expect_told 0 'agrees 1' '' judge i t
expect_told 1 'differs row 1: pc_rdata expected 0x0000000080000004 found 0x0000000080000000' '' \
    state i t --pc 0x80000004
expect_told 5 '' 'rvjudge: none: there is no such file' state i none
expect_told 2 'refused words' "rvjudge: --workers: 65 is not in 1 to 64" judge i t --workers 65
expect_told 2 'refused words' 'rvjudge: --origin is no option of state' state i t --origin
expect_told 2 'refused words' 'rvjudge: judge wants two words, and has 0' judge
expect_told 5 '' 'rvjudge: none: there is no such file' judge --origin none --pc 0x80000000 -- t
expect_told 5 '' 'rvjudge: -none: there is no such file' judge --harts 1 --origin i -- -none
expect_told 2 'refused words' 'usage: rvjudge judge IMAGE TRACE' --help
expect_told 2 'refused words' 'version of the test' --version
expect_told 5 '' 'rvjudge: none: there is no such file' judge i none
expect_told 5 '' 'rvjudge: .: it is a folder' judge . t
# Where there is no python3 the shell tells what it can.
mkdir tools
for tool in env cat grep; do ln -s "$(command -v $tool)" tools; done
# shellcheck disable=SC2123  # the path that commands are looked for in
usual=$PATH PATH=$folder/tools
expect_told 2 'refused words' 'rvjudge: these words are refused' judge i t --workers 65
expect_told 5 '' 'rvjudge: none: there is no such file' judge --origin none t
PATH=$usual
(run_judge 1 "$program" judge i /dev/stdin <t) >said 2>/dev/null
[ "$(cat said)" = 'agrees 1' ] || fail "standard input: $(cat said)"

# The judge gives memory back, unless the environment says how much it keeps.
shown() {
    (run_judge 3 sh -c 'echo "$MALLOC_MMAP_THRESHOLD_"' 2>/dev/null)
}
found=$(unset MALLOC_MMAP_THRESHOLD_; shown)
[ "$found" = 1048576 ] || fail "memory is given back from '$found' bytes on"
found=$(MALLOC_MMAP_THRESHOLD_=4096; export MALLOC_MMAP_THRESHOLD_; shown)
[ "$found" = 4096 ] || fail "the environment asks for 4096, and the judge has '$found'"

# Signals reach the judge, and this one ends by them.
mkfifo pipe
sh -c '. "$1/run_judge.sh"; tell_version() { :; }; run_judge 1 "$2" judge i pipe' '' "$bin" "$program" &
runner=$!
sleep 0.5
judge=$(pgrep -f -x "$program judge i pipe" || ps -o pid= --ppid "$runner" | head -n 1)
kill -TERM "$runner"
wait "$runner" 2>/dev/null
[ $? -eq 143 ] || fail 'a run that was ended has another status'
for _ in 1 2 3 4 5; do kill -0 $judge 2>/dev/null && sleep 0.2; done
# shellcheck disable=SC2086
kill -0 $judge 2>/dev/null && fail 'the judge still runs'

exit "$failed"
