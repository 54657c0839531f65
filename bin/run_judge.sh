# Runs the judge for bin/rvjudge and bin/rvjudge-unproved, which read this file, and for a person
# tells on standard error what the judge does not: the usage and what is wrong with the words, which
# file could not be read, and where that is a terminal how far a run is. The judge's standard output
# and status stay as they are. The reader of this file defines tell_version.

usage_file=$(dirname "$(readlink -f "$0")")/usage.txt
[ -f "$usage_file" ] || usage_file=${RVJUDGE_USAGE:-}

# Runs the program, which is the first COUNT words after it, with the words that are left:
# run_judge COUNT PROGRAM.. WORDS... Signals that end it are passed on, and end this one too.
run_judge() {
    program_words=$1
    shift
    # What runs in the background would not heed SIGINT and SIGQUIT.
    heeds='env --default-signal=INT,QUIT'
    $heeds true 2>/dev/null || heeds=
    if (exec 3<&0) 2>/dev/null; then exec 3<&0; else exec 3</dev/null; fi
    # Pieces of memory of so many bytes and more go back to the system as soon as the judge gives
    # them back. By itself the C library raises the number as it goes, and keeps more with each
    # thread (docs/DECISIONS.md).
    MALLOC_MMAP_THRESHOLD_=${MALLOC_MMAP_THRESHOLD_-1048576} $heeds "$@" <&3 3<&- &
    judge=$!
    for name in INT TERM HUP QUIT; do
        # shellcheck disable=SC2064  # the number is known now
        trap "kill -$name $judge 2>/dev/null" "$name"
    done
    shift "$program_words"
    progress=
    if [ -t 2 ] && [ "${1:-}" != make ]; then
        find_files "$@"
        tell_progress "$judge" "$image" "$trace" </dev/null >/dev/null 3<&- &
        progress=$!
    fi
    while wait "$judge"; status=$?; [ "$status" -gt 128 ] && kill -0 "$judge" 2>/dev/null; do :; done
    [ -z "$progress" ] || { kill "$progress" 2>/dev/null; wait "$progress" 2>/dev/null; }
    tell_status "$status" "$@"
    end_with "$status"
}

# Ends as the judge ended: with its status, or by the signal that ended it.
end_with() {
    case $1 in
        129 | 130 | 137 | 143)
            trap - HUP INT TERM
            kill "-$(($1 - 128))" $$ ;;
    esac
    exit "$1"
}

say() {
    echo "rvjudge: $*" >&2
}

tell_status() {
    told=$1
    shift
    case $told in
        2)
            case ${1:-} in
                --version | -V | version) tell_version >&2; return ;;
                --help | -h | help) ;;
                *) find_reason "$@"; say "${reason:-these words are refused}" ;;
            esac
            [ -z "$usage_file" ] || cat "$usage_file" >&2 ;;
        5) find_files "$@"; tell_files ;;
        6) say "memory was refused: see --window and --segment" ;;
    esac
}

# Which file could not be read, as far as it can be told now.
tell_files() {
    found=
    [ "$command" != make ] || image='' trace=''
    for file in "$image" "$trace"; do
        [ -n "$file" ] || continue
        if [ ! -e "$file" ]; then found=1; say "$file: there is no such file"
        elif [ -d "$file" ]; then found=1; say "$file: it is a folder"
        elif [ ! -r "$file" ]; then found=1; say "$file: it may not be read"
        fi
    done
    [ -n "$found" ] || say "a file could not be read to its end, or the line not be written"
}

# ---- the words, after docs/REFERENCE.md; what is told of them decides nothing

# The command, and the image and the trace that it names.
find_files() {
    command=${1:-} image='' trace='' all_plain=''
    [ $# -eq 0 ] || shift
    while [ $# -gt 0 ]; do
        word=$1
        shift
        case $all_plain$word in
            --) all_plain=1 ;;
            --*=*) ;;
            --*) is_flag "$word" || [ $# -eq 0 ] || shift ;;
            *) [ -n "$image" ] || { image=$word; continue; }
                [ -n "$trace" ] || trace=$word ;;
        esac
    done
}

# Whether an option has no value, by the table of words.
is_flag() {
    [ -f "${usage_file%/*}/words.tsv" ] || return
    while read -r name value _; do
        [ "$name $value" != "$1 -" ] || return 0
    done <"${usage_file%/*}/words.tsv"
    return 1
}

# The first reason why the judge refuses the words. It needs python3, which is started where the judge
# has refused, and only then. Where there is none, and the program and these lines of sh are all that
# is installed, no reason is known, and the usage tells which words are taken.
find_reason() {
    reason=$(python3 -IS "${usage_file%/*}/words.py" "$@" 2>/dev/null) || reason=''
}

# ---- how far a run is

# After two seconds a line, each second anew, which is wiped when this is ended. It stands one line
# below the cursor, so that the judge's line finds an empty one.
tell_progress() {
    nap=
    trap 'kill "$nap" 2>/dev/null; exit' TERM
    rest 2
    [ -f "$3" ] || return
    size=$(stat -Lc %s "$3") skip=$(stat -Lc %s "$2" 2>/dev/null || echo 0) seconds=2
    mean=$(head -c 65536 "$3" | awk '{ bytes += length($0) + 1 } END { print int(bytes / NR) + !NR }')
    trap 'kill "$nap" 2>/dev/null; printf "\r\033[J" >&2; exit' TERM
    while { read -r _ bytes <"/proc/$1/io"; } 2>/dev/null; do
        done_bytes=$((bytes > skip ? bytes - skip : 0))
        [ "$done_bytes" -le "$size" ] || done_bytes=$size
        [ "$done_bytes" -gt 0 ] || done_bytes=1
        left=$(((size - done_bytes) / (done_bytes / seconds + 1)))
        printf '\nrvjudge: %d%% read, %d rows a second, %d:%02d left\033[K\r\033[A' \
            $((100 * done_bytes / (size + 1))) $((done_bytes / seconds / (mean + !mean))) \
            $((left / 60)) $((left % 60)) >&2
        rest 1
        seconds=$((seconds + 1))
    done
}

rest() {
    sleep "$1" &
    nap=$!
    wait "$nap"
}
