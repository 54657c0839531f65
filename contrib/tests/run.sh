#!/bin/sh
# Tries what is in contrib/, and the examples of the documents: run.sh [PROGRAM]. The judge is
# PROGRAM, or bin/rvjudge. What needs a tool that is not there is not run, and that is said by name.
# The status is not 0 where anything failed.
set -u
tests=$(cd "$(dirname "$(readlink -f "$0")")" && pwd) || exit 1
contrib=$(dirname "$tests")
program=$(readlink -f "${1:-$contrib/../bin/rvjudge}")
folder=$(mktemp -d) || exit 1
trap 'rm -rf "$folder"' EXIT
failed=0 left_out=
# Whether the judge knows several harts.
"$program" judge "$tests/examples/harts.hex" "$tests/examples/harts.csv" --harts 2 >/dev/null 2>&1
[ $? -eq 2 ] && knows_harts='' || knows_harts=1

fail() {
    echo "contrib: FAILED: $*" >&2
    failed=1
}

# Whether the tools that a test names are there; says which are not.
can_run() {
    name=$1 missing=
    shift
    for tool; do
        command -v "$tool" >/dev/null || missing="$missing $tool"
    done
    [ -z "$missing" ] || leave_out "$name, as there is no$missing"
    [ -z "$missing" ]
}

# Says what is left out, and keeps it for the last lines.
leave_out() {
    echo "contrib: not run: $*"
    left_out="$left_out
    $*"
}

# Whether a tool has the version that its test is written for, which begins with the last word.
has_version() {
    "$2" --version 2>/dev/null | grep -q "$3" && return
    leave_out "$1, as $2 is of another version than $3"
    return 1
}

# Whether Debian's python3-pyelftools is there.
has_elftools() {
    PYTHONPATH=/usr/lib/python3/dist-packages python3 -c 'import elftools' 2>/dev/null && return
    leave_out "$1, as there is no python3-pyelftools"
    return 1
}

# A name, the line that the judge is to print, and its words.
expect() {
    name=$1 wanted=$2
    shift 2
    found=$("$program" judge "$@")
    [ "$found" = "$wanted" ] || fail "$name: '$found', wanted '$wanted'"
}

# The judge's words for so many harts; none where it does not know several.
for_harts() {
    [ -z "$knows_harts" ] || echo "--harts $1"
}

# A name, what standard error is to have, and a command that must fail.
expect_fault() {
    name=$1 wanted=$2
    shift 2
    if "$@" >/dev/null 2>"$folder/said"; then
        fail "$name: it did not fail"
    fi
    grep -qF -e "$wanted" "$folder/said" || fail "$name: '$(cat "$folder/said")', wanted '$wanted'"
}

# Whether the judge knows each of so many columns of a trace: it refuses those that stand twice, and
# passes over names that it does not know.
expect_columns() {
    columns=$(head -n 1 "$2" | tr , ' ')
    # shellcheck disable=SC2086  # names are words
    set -- "$1" "$3" $columns
    [ $# -eq $(($2 + 2)) ] || fail "$1: $(($# - 2)) columns, wanted $2"
    name=$1
    shift 2
    for column; do
        printf 'insn,pc_rdata,%s,%s\n' "$column" "$column" >"$folder/twice.csv"
        "$program" judge "$tests/rvfi/image.hex" "$folder/twice.csv" >"$folder/said"
        [ $? -eq 4 ] || fail "$name: the judge does not know the column $column"
    done
}

# Logs of Spike, written by hand after its form: one that agrees, and some that are altered.
test_spike() {
    log=$tests/spike/log.txt image=$tests/spike/image.hex out=$folder/spike.csv
    python3 "$contrib/spike_log.py" "$log" -o "$out" 2>"$folder/said" || fail "spike_log.py"
    grep -q '^spike_log.py: 5 rows before 0x80000000 are left out$' "$folder/said" ||
        fail "spike_log.py did not tell what it left out"
    expect spike 'agrees 25' "$image" "$out"
    begin 'spike, from its start' "$image"
    grep -q '^    bin/rvjudge judge start.rvstate ' "$folder/said" || fail 'spike_log.py: no command'
    grep -qx 'x11 0000000000001020' "$folder/start.rvstate" || fail 'spike_log.py: a1 at the start'
    expect 'spike, from its start' 'agrees 25' "$folder/start.rvstate" "$out"
    expect_columns spike "$out" 35
    python3 "$contrib/spike_log.py" <"$log" 2>/dev/null | cmp -s - "$out" ||
        fail "spike_log.py differs on standard input"
    sed 's/0x0000fcfd$/0x0000fcfc/' "$log" | python3 "$contrib/spike_log.py" -o "$out" 2>/dev/null
    expect 'spike, a wrong store' \
        'differs row 8: mem_wdata expected 0x000000000000fcfd found 0x000000000000fcfc' \
        "$image" "$out"
    sed 's/c833_mepc 0x000000008000002a/c833_mepc 0x000000008000002c/' "$log" |
        python3 "$contrib/spike_log.py" -o "$out" 2>/dev/null
    expect 'spike, a wrong register' \
        'differs row 16: csr_mepc_wdata expected 0x000000008000002a found 0x000000008000002c' \
        "$image" "$out"
    sed '/^core   0: 0x/d' "$log" >"$folder/log"
    expect_fault 'spike without -l' 'line 1: an instruction that -l has not listed' \
        python3 "$contrib/spike_log.py" "$folder/log"
    { head -n 12 "$log"; echo 'tohost = 1'; } >"$folder/log"
    expect_fault 'a line that is not of Spike' "line 13: no line of Spike's log" \
        python3 "$contrib/spike_log.py" "$folder/log"
    sed 's/^core   0: 3 0x0000000080000004.*/& f10 0x3ff0000000000000/' "$log" >"$folder/log"
    expect_fault 'a register of floating point' "line 15: a write of 'f10'" \
        python3 "$contrib/spike_log.py" "$folder/log"
    expect_fault 'a start that is not there' 'no instruction at 0x2000' \
        python3 "$contrib/spike_log.py" --pc 0x2000 "$log"
}

# The log of a run in qemu that is stored, and the same with less in it.
test_qemu_log() {
    image=$tests/qemu/image.hex out=$folder/qemu.csv io=0x100000:0xff01000
    gzip -dc "$tests/qemu/run.log.gz" >"$folder/log"
    python3 "$contrib/qemu_log.py" "$folder/log" -o "$out" 2>"$folder/said" || fail "qemu_log.py"
    grep -q 'judge with' "$folder/said" && fail "qemu_log.py names options: $(cat "$folder/said")"
    expect qemu 'agrees 274' "$image" "$out" --io $io
    expect_columns qemu "$out" 34
    [ "$(cksum <"$out")" = '683740526 47908' ] || fail 'qemu_log.py: one hart has another trace'
    python3 "$tests/memory_columns.py" "$out" || fail 'qemu_log.py: the columns of memory'
    sed '/^0x0000000080000010/{p;p;p;}' "$folder/log" >"$folder/endless"
    python3 "$contrib/qemu_log.py" "$folder/endless" -o "$folder/endless.csv" 2>"$folder/said"
    grep -q 'lists the word at 0x0000000080000010 without end' "$folder/said" ||
        fail "qemu_log.py, a word that is listed without end: $(cat "$folder/said")"
    sed '/^IN:/,/^0x/d' "$folder/log" >"$folder/less"
    python3 "$contrib/qemu_log.py" "$folder/less" --image "$image" -o "$folder/less.csv" 2>/dev/null
    expect 'qemu without in_asm, with --image' 'agrees 274' "$image" "$folder/less.csv" --io $io
    sed '/^Trace /d' "$folder/log" | python3 "$contrib/qemu_log.py" 2>/dev/null | cmp -s - "$out" ||
        fail "qemu_log.py: without exec the trace is another"
    head -c 200000 "$folder/log" | python3 "$contrib/qemu_log.py" -o "$out" 2>"$folder/said"
    grep -q 'the log ends in the middle of a state' "$folder/said" || fail "a log that is cut off"
    expect 'qemu, cut off' 'agrees 134' "$image" "$out" --io $io
    sed 's/x13\/a3   ffffffffd87d1440/x13\/a3   ffffffffd87d1441/' "$folder/log" |
        python3 "$contrib/qemu_log.py" -o "$out" 2>/dev/null
    expect 'qemu, a wrong register' \
        'differs row 98: rd_wdata expected 0xffffffffd87d1440 found 0xffffffffd87d1441' \
        "$image" "$out" --io $io
    sed '/^IN:/,/^0x/d' "$folder/log" >"$folder/less"
    expect_fault 'qemu without in_asm' 'is listed: add in_asm' \
        python3 "$contrib/qemu_log.py" "$folder/less"
}

# A program of ours, built and run here.
test_qemu() {
    sh "$tests/qemu/make.sh" "$folder" || fail "the program did not run in qemu"
    out=$folder/run.csv
    python3 "$contrib/qemu_log.py" "$folder/run.log" -o "$out" 2>/dev/null || fail "qemu_log.py"
    rows=$(($(wc -l <"$out") - 1))
    [ "$rows" -gt 200 ] || fail "qemu carried out $rows rows"
    expect 'qemu, run here' "agrees $rows" "$folder/image.hex" "$out" --io 0x100000:0xff01000
}

# Harts that count under one lock, run here: their rows stand in the order of memory.
test_qemu_harts() {
    for harts in 2 4; do
        sh "$tests/qemu/harts.sh" "$folder" $harts || fail "harts.s, $harts harts: no run in qemu"
        out=$folder/harts.csv
        python3 "$contrib/qemu_log.py" --harts $harts "$folder/harts.log" -o "$out" \
            2>"$folder/said" ||
            fail "qemu_log.py --harts $harts: $(cat "$folder/said")"
        found=$(python3 "$tests/memory_order.py" "$out")
        case $found in
            *" rows of $harts harts in "*": $((3 * harts)) SC stored, "*) ;;
            *) fail "harts.s, $harts harts: '$found'" ;;
        esac
        [ -z "$knows_harts" ] || expect "harts.s, $harts harts, judged" \
            "agrees $(($(wc -l <"$out") - 1))" "$folder/harts.elf" "$out" --harts $harts \
            --io 0x100000:0xff01000
        grep -q "^0x0,.*,0xa,$(printf '0x%x' $((3 * harts)))," "$out" ||
            fail "harts.s, $harts harts: another count than $((3 * harts))"
    done
    sh "$tests/qemu/harts.sh" "$folder" 1 || fail 'harts.s, one hart: no run in qemu'
    python3 "$contrib/qemu_log.py" "$folder/harts.log" -o "$out" 2>/dev/null || fail 'qemu_log.py'
    expect 'harts.s, one hart' "agrees $(($(wc -l <"$out") - 1))" "$folder/harts.elf" "$out" \
        --io 0x100000:0xff01000
    test_qemu_interrupts
    sh "$tests/qemu/four.sh" "$folder" || fail 'programs of four harts: no run in qemu'
    [ -z "$knows_harts" ] || python3 "$tests/harts_test.py" "$program" "$folder" ||
        fail 'programs of four harts, run here'
}

# A hart that interrupts another: they share no memory, so that the rows of each agree alone, without
# the column of harts.
test_qemu_interrupts() {
    sh "$tests/qemu/harts.sh" "$folder" 2 interrupts.s || fail 'interrupts.s: no run in qemu'
    python3 "$contrib/qemu_log.py" --harts 2 "$folder/harts.log" -o "$out" 2>/dev/null ||
        fail 'qemu_log.py: interrupts.s'
    python3 "$tests/memory_order.py" "$out" >"$folder/said" 2>&1 ||
        fail "interrupts.s: $(cat "$folder/said")"
    # Six, but for those that come while hart 1 has not had its turn yet.
    grep -q '^0x1,0x1,' "$out" || fail 'interrupts.s: no interrupt'
    for hart in 0 1; do
        grep -e '^hart,' -e "^0x$hart," "$out" | cut -d , -f 2- >"$folder/alone.csv"
        rows=$(($(wc -l <"$folder/alone.csv") - 1))
        [ "$rows" -gt 40 ] || fail "interrupts.s: $rows rows of hart $hart"
        expect "interrupts.s, hart $hart" "agrees $rows" "$folder/harts.elf" "$folder/alone.csv" \
            --io 0x100000:0xff01000
    done
    [ -z "$knows_harts" ] || expect 'interrupts.s, both harts' \
        "agrees $(($(wc -l <"$out") - 1))" "$folder/harts.elf" "$out" --harts 2 \
        --io 0x100000:0xff01000
}

# What qemu chose otherwise than the judge does by default, under the options that qemu_log.py names.
test_qemu_choices() {
    sh "$tests/qemu/make.sh" "$folder" choices.s || fail "choices.s did not run in qemu"
    out=$folder/run.csv io=0x100000:0xff01000
    python3 "$contrib/qemu_log.py" --choices "$folder/run.log" -o "$out" 2>"$folder/said" ||
        fail "qemu_log.py --choices"
    options=$(sed -n "s/^qemu_log.py: the judge's options that fit qemu: //p" "$folder/said")
    [ "$options" = '--profile qemu' ] || fail "qemu_log.py --choices: $(cat "$folder/said")"
    python3 "$contrib/qemu_log.py" "$folder/run.log" 2>"$folder/said" | cmp -s - "$out" ||
        fail 'qemu_log.py --choices: another trace'
    for reason in ' accesses at misaligned addresses' 'pages whose A and D qemu sets'; do
        grep -q "$reason: judge with --profile qemu\$" "$folder/said" ||
            fail "qemu_log.py does not name --profile qemu: $(cat "$folder/said")"
    done
    grep -q options "$folder/said" && fail 'qemu_log.py names all options without --choices'
    python3 "$tests/memory_columns.py" "$out" || fail 'qemu_log.py: the columns of odd accesses'
    rows=$(($(wc -l <"$out") - 1))
    # shellcheck disable=SC2086  # words
    expect "qemu's choices" "agrees $rows" "$folder/image.hex" "$out" --io $io $options
    "$program" judge "$folder/image.hex" "$out" --io $io >"$folder/said"
    [ $? -eq 1 ] || fail "qemu's choices without options: $(cat "$folder/said")"
}

# What qemu's registers hold, and the trap value of EBREAK, under the profile.
test_qemu_registers() {
    sh "$tests/qemu/make.sh" "$folder" registers.s || fail "registers.s did not run in qemu"
    out=$folder/run.csv io=0x100000:0xff01000
    python3 "$contrib/qemu_log.py" "$folder/run.log" -o "$out" 2>/dev/null ||
        fail 'qemu_log.py: registers.s'
    rows=$(($(wc -l <"$out") - 1))
    [ "$rows" -gt 80 ] || fail "registers.s: $rows rows"
    expect "qemu's registers" "agrees $rows" "$folder/image.hex" "$out" --io $io --profile qemu
    "$program" judge "$folder/image.hex" "$out" --io $io --profile qemu --mtval value >"$folder/said"
    grep -q "^differs row $((rows - 5)): csr_mtval_rdata " "$folder/said" ||
        fail "qemu's registers, but for EBREAK: $(cat "$folder/said")"
    expect "qemu's registers without the profile" \
        'differs row 6: rd_wdata expected 0x000000000000b3ff found 0x0000000000f0bfff' \
        "$folder/image.hex" "$out" --io $io
}

# A run that begins with what the boot ROM left, in registers and in memory.
test_qemu_rom() {
    sh "$tests/qemu/make.sh" "$folder" rom.s off rom || fail "rom.s did not run in qemu"
    out=$folder/run.csv io=0x100000:0xff01000
    python3 "$contrib/qemu_log.py" "$folder/run.log" -o "$out" 2>"$folder/said" ||
        fail 'qemu_log.py: rom.s'
    begin 'qemu after its boot ROM' "$folder/image.hex" --blob "0x87e00000=$folder/board.dtb"
    grep -qx 'x11 0000000087e00000' "$folder/start.rvstate" || fail 'qemu_log.py: a1 at the start'
    "$program" judge "$folder/image.hex" "$out" --io $io >"$folder/said"
    [ $? -eq 1 ] || fail "qemu after its boot ROM, from reset: $(cat "$folder/said")"
    expect 'qemu after its boot ROM' "agrees $(($(wc -l <"$out") - 1))" \
        "$folder/start.rvstate" "$out" --io $io
}

# Bit manipulation, under the option that qemu_log.py names where such instructions were carried out.
test_qemu_bits() {
    sh "$tests/qemu/make.sh" "$folder" bits.s on || fail "bits.s did not run in qemu"
    out=$folder/run.csv io=0x100000:0xff01000
    python3 "$contrib/qemu_log.py" --choices "$folder/run.log" -o "$out" 2>"$folder/said" ||
        fail "qemu_log.py: bits.s"
    grep -q ': 20 instructions of bit manipulation: judge with --bits on$' "$folder/said" ||
        fail "qemu_log.py does not name --bits on: $(cat "$folder/said")"
    grep -q 'fit qemu: --profile qemu --bits on$' "$folder/said" ||
        fail "qemu_log.py --choices: $(cat "$folder/said")"
    rows=$(($(wc -l <"$out") - 1))
    expect 'bits.s' "agrees $rows" "$folder/image.hex" "$out" --io $io --bits on
    sed '/^IN:/,/^0x/d' "$folder/run.log" >"$folder/less"
    python3 "$contrib/qemu_log.py" "$folder/less" --image "$folder/program.elf" 2>/dev/null |
        cmp -s - "$out" || fail 'qemu_log.py: with an ELF file as --image the trace is another'
    "$program" judge "$folder/image.hex" "$out" --io $io >"$folder/said"
    [ $? -eq 1 ] || fail "bits.s without --bits on: $(cat "$folder/said")"
}

# What M carries out while its loads are translated: qemu lists other bytes, and the image has the right
# ones.
test_qemu_translated_loads() {
    sh "$tests/qemu/make.sh" "$folder" mprv.s || fail "mprv.s did not run in qemu"
    out=$folder/run.csv
    python3 "$contrib/qemu_log.py" "$folder/run.log" --image "$folder/program.elf" -o "$out" \
        2>"$folder/said" || fail "qemu_log.py: mprv.s: $(cat "$folder/said")"
    rows=$(($(wc -l <"$out") - 1))
    [ "$rows" -gt 40 ] || fail "mprv.s: $rows rows"
    expect 'mprv.s' "agrees $rows" "$folder/image.hex" "$out" --io 0x100000:0xff01000 --profile qemu
    expect_fault 'mprv.s without its image' 'where MPRV has loads translated: give --image' \
        python3 "$contrib/qemu_log.py" "$folder/run.log"
}

# Firmware that Debian has, from its first instruction on, live; and a difference, which ends qemu.
test_boot() {
    found=$(sh "$contrib/boot/boot.sh" 200000 "$program" 2>"$folder/said")
    if [ $? -eq 69 ]; then
        leave_out "firmware in qemu: $(cat "$folder/said")"
        return
    fi
    [ "$found" = 'agrees 200000' ] || fail "firmware in qemu: '$found': $(cat "$folder/said")"
    printf '%s\n' '#!/bin/sh' 'shift 2' "exec '$program' judge '$folder/none.rvstate' \"\$@\"" \
        >"$folder/other"
    python3 "$contrib/make_state.py" -o "$folder/none.rvstate"
    chmod +x "$folder/other"
    found=$(timeout 300 sh "$contrib/boot/boot.sh" 0 "$folder/other" 2>"$folder/said")
    status=$? wanted='differs row 1: insn expected 0x0000000000000000 found 0x0000000000050433'
    [ "$status $found" = "1 $wanted" ] || fail "firmware without an image: $status '$found'"
}

# A state that make_state.py makes and the judge begins from: its text is that of the judge.
expect_state() {
    printf 'insn,pc_rdata\n' >"$folder/none.csv"
    "$program" state "$2" "$folder/none.csv" | cmp - "$2" ||
        fail "$1: the judge writes the state otherwise"
}

# The state by which a converter tells to begin, from what it said: begin NAME IMAGE WORD..
begin() {
    name=$1 image=$2
    shift 2
    options=$(sed -n 's/^    contrib\/make_state.py IMAGE \(.*\) -o start.rvstate$/\1/p' "$folder/said")
    [ -n "$options" ] || fail "$name: no command for the start: $(cat "$folder/said")"
    # shellcheck disable=SC2086  # words
    python3 "$contrib/make_state.py" "$image" $options "$@" -o "$folder/start.rvstate" ||
        fail "$name: make_state.py"
    expect_state "$name" "$folder/start.rvstate"
}

# The writer at an RVFI port of so many instructions a cycle.
judge_bench() {
    name_of_bench=$1
    shift
    expect "$name_of_bench" 'agrees 10' "$tests/rvfi/image.hex" "$folder/bench.csv" "$@"
}

# The same with one line for all ports: bench.csv has the rows of rows.csv, and valid before each.
judge_lines() {
    python3 "$contrib/port_rows.py" "$folder/bench.csv" -o "$folder/apart.csv" 2>/dev/null ||
        fail "$1: port_rows.py"
    sed -e '/^0x0,*$/d' -e 's/^valid,//' -e 's/^0x1,//' "$folder/apart.csv" |
        cmp - "$folder/rows.csv" || fail "$1: other rows than with a line for each"
    expect "$1, taken apart" 'agrees 10' "$tests/rvfi/image.hex" "$folder/apart.csv"
    judge_bench "$1"
}

# Two cores that wrote first.csv and second.csv, merged by their time: a name, and the hart of each
# row.
judge_pair() {
    pair=$1
    for core in first second; do
        # shellcheck disable=SC2046  # words
        expect "$pair, the $core core" 'agrees 10' "$tests/rvfi/image.hex" "$folder/$core.csv" \
            $(for_harts 2)
    done
    python3 "$contrib/merge_rows.py" "$folder/first.csv" "$folder/second.csv" -o "$folder/both.csv" \
        2>"$folder/said"
    grep -q 'second.csv: .* of hart 1$' "$folder/said" || fail "$pair: $(cat "$folder/said")"
    python3 "$contrib/port_rows.py" "$folder/both.csv" -o "$folder/pair.csv" 2>/dev/null
    for merged in both pair; do
        [ -z "$knows_harts" ] || expect "$pair, $merged" 'agrees 20' "$tests/rvfi/image.hex" \
            "$folder/$merged.csv" --harts 2
    done
    found=$(awk -F , 'NR == 1 { for (i = 1; i <= NF; i++) if ($i == "hart") column = i }
        NR > 1 { printf "%s", substr($column, 3) }' "$folder/pair.csv")
    [ "$found" = "$2" ] || fail "$pair: rows of the harts $found, wanted $2"
}

# The numbers of harts: a column more, and nothing else changes.
test_hart_column() {
    for case in '1 0 0' '2 1 5'; do
        # shellcheck disable=SC2086  # the case's words
        set -- $case
        play_bench "$1" "$2"
        cp "$folder/bench.csv" "$folder/rows.csv"
        play_bench "$1" "$2" -Pbench.HART="$3" -Pbench.TIME=1
        # shellcheck disable=SC2046  # words
        judge_bench "iverilog, hart $3" $(for_harts $(($3 + 1)))
        awk -F , -v OFS= 'NR == 1 { for (i = 1; i <= NF; i++) if ($i ~ /^(hart|time)/) skip[i] = 1 }
            { for (i = 1; i <= NF; i++) $i = i in skip ? "" : (i > 1 ? "," : "") $i; print }' \
            "$folder/bench.csv" | cmp - "$folder/rows.csv" ||
            fail "rvfi_csv.sv, hart $3: other rows"
        [ "$(grep -c ",0x$3," "$folder/bench.csv")" -gt 4 ] || fail "rvfi_csv.sv: no row of hart $3"
    done
    iverilog -g2012 -DPAIR -s bench -o "$folder/bench" \
        "$tests/rvfi/bench.sv" "$contrib/rvfi_csv.sv" 2>/dev/null
    (cd "$folder" && vvp -n bench >/dev/null 2>&1)
    judge_pair 'iverilog, two cores' 00101010101010101011
}

test_iverilog() {
    for ports in 1 2 3; do
        play_bench $ports 0
        judge_bench "iverilog, $ports ports"
        cp "$folder/bench.csv" "$folder/rows.csv"
        play_bench $ports 1
        grep -q ": 10 rows in $(((10 + ports - 1) / ports)) lines\$" "$folder/said" ||
            fail "rvfi_csv.sv, one line for $ports ports: $(cat "$folder/said")"
        judge_lines "iverilog, one line for $ports ports"
    done
    iverilog -g2012 -s structs -o "$folder/structs" "$tests/rvfi/structs.sv" \
        "$tests/rvfi/bench.sv" "$contrib/rvfi_csv.sv" 2>/dev/null
    rm -f "$folder/bench.csv"
    (cd "$folder" && vvp -n structs >/dev/null 2>&1)
    judge_bench 'iverilog, a port of structs'
    iverilog -g2012 -s all -o "$folder/all" "$tests/rvfi/all.sv" "$contrib/rvfi_csv.sv" 2>/dev/null
    vvp -n "$folder/all" "+rvfi_csv=$folder/all.csv" 2>/dev/null
    expect_columns 'rvfi_csv.sv with every column' "$folder/all.csv" 109
    test_unknown
    test_hart_column
    for case in 'OPEN rvfi_valid is left open' 'UNKNOWN_VALID rvfi_valid is unknown'; do
        iverilog -g2012 -D"${case%% *}" -s bench -o "$folder/bench" \
            "$tests/rvfi/bench.sv" "$contrib/rvfi_csv.sv" 2>/dev/null
        expect_fault "rvfi_csv.sv: ${case#* }" "${case#* }" \
            vvp -n "$folder/bench" "+rvfi_csv=$folder/bench.csv"
        "$program" judge "$tests/rvfi/image.hex" "$folder/bench.csv" >/dev/null 2>&1
        [ $? -eq 4 ] || fail "rvfi_csv.sv: ${case#* }: the judge takes what was written"
    done
    expect_fault 'rvfi_csv.sv with an XLEN of 32' 'XLEN_must_be_64' \
        iverilog -g2012 -Pall.XLEN=32 -s all -o "$folder/all" "$tests/rvfi/all.sv" \
        "$contrib/rvfi_csv.sv"
    expect_fault 'rvfi_csv.sv, one line for 5 ports' 'NRET_must_be_at_most_4' \
        iverilog -g2012 -Pbench.NRET=5 -Pbench.ONE_LINE=1 -s bench -o "$folder/bench" \
        "$tests/rvfi/bench.sv" "$contrib/rvfi_csv.sv"
}

# The bench at so many ports, with one line for them or not, and with further words.
play_bench() {
    ports_of_bench=$1 one_line=$2
    shift 2
    iverilog -g2012 -Pbench.NRET="$ports_of_bench" -Pbench.ONE_LINE="$one_line" "$@" -s bench \
        -o "$folder/bench" "$tests/rvfi/bench.sv" "$contrib/rvfi_csv.sv" 2>"$folder/said" ||
        fail "iverilog: $(cat "$folder/said")"
    vvp -n "$folder/bench" "+rvfi_csv=$folder/bench.csv" 2>"$folder/said"
}

# Unknown bits: those that nothing is to be known of are 0, others are refused, or left empty.
test_unknown() {
    for case in '1 0 agrees 10' '2 0 refused trace: row 8: rs2_rdata not a number' \
        '2 1 agrees 10' '3 0 refused trace: row 7: mem_rdata not a number' \
        '4 0 refused trace: row 5: rd_wdata not a number'; do
        # shellcheck disable=SC2086  # the case's words
        set -- $case
        iverilog -g2012 -Pbench.UNKNOWN="$1" -Pbench.EMPTY="$2" -s bench -o "$folder/bench" \
            "$tests/rvfi/bench.sv" "$contrib/rvfi_csv.sv" 2>/dev/null
        vvp -n "$folder/bench" "+rvfi_csv=$folder/bench.csv" 2>"$folder/said"
        expect "iverilog, unknown bits $1 $2" "${case#? ? }" \
            "$tests/rvfi/image.hex" "$folder/bench.csv"
        wanted='written as x' number=1
        [ "$2" -eq 0 ] || wanted='left empty' number=4
        [ "$1" -ne 1 ] || number=0
        [ "$(grep -c ": 1 fields $wanted for unknown bits$" "$folder/said")" -eq $number ] ||
            fail "rvfi_csv.sv did not count unknown bits: $(cat "$folder/said")"
    done
}

# The bench in Verilator, with these words, into bench.csv.
verilate_bench() {
    rm -rf "$folder/obj_dir" "$folder/bench.csv"
    (cd "$folder" &&
        verilator --binary --top-module bench "$@" -Wno-PINMISSING -Wno-WIDTH \
            "$tests/rvfi/bench.sv" "$contrib/rvfi_csv.sv" >said 2>&1 &&
        obj_dir/Vbench >said 2>&1) ||
        fail "verilator: $(tail -n 20 "$folder/said")"
}

test_verilator() {
    verilate_bench -GNRET=2 -DBIND -DRVFI_CSV_ONLY_STANDARD
    judge_bench 'verilator, bound by .*'
    for bind in -DBIND -DINSTANCE; do
        verilate_bench -GNRET=2 $bind
        judge_bench "verilator $bind"
    done
    mv "$folder/bench.csv" "$folder/rows.csv"
    for ports in 2 3; do
        verilate_bench -GNRET=$ports -GONE_LINE=1
        judge_lines "verilator, one line for $ports ports"
    done
    verilate_bench -GNRET=2 -GONE_LINE=1 -DPAIR
    judge_pair 'verilator, two cores with a line for two ports' 00001100110011001111
    expect_fault 'rvfi_csv.sv with an XLEN of 32' 'XLEN is' verilator --lint-only --top-module all \
        -GXLEN=32 -Wno-PINMISSING -Wno-WIDTH "$tests/rvfi/all.sv" "$contrib/rvfi_csv.sv"
    expect_fault 'rvfi_csv.sv, one line for 5 ports' 'NRET is' verilator --lint-only \
        --top-module bench -GNRET=5 -GONE_LINE=1 -Wno-PINMISSING -Wno-WIDTH \
        "$tests/rvfi/bench.sv" "$contrib/rvfi_csv.sv"
}

# The text of a state by its lines, states that cannot be, and a state that is altered.
test_make_state() {
    state=$folder/made.rvstate
    printf '@80000010 0f' >"$folder/made.hex"
    printf 'device tree' >"$folder/blob"
    python3 "$contrib/make_state.py" "$folder/made.hex" --set a0=0xa --set sp=-16 --set x31=31 \
        --set mode=S --set order=7 --set flags=10 --set reserved=0x80000040 --set csr_satp=0 \
        --set mstatus=0x1800 --set pmpcfg0=0x9f1f --set pmpaddr15=0x3fffffffffffff \
        --blob "0x80000ffe=$folder/blob" --pc 0x80000004 -o "$state" || fail make_state.py
    { printf '%s\n' 'rvstate 1' 'pc 0000000080000004' 'mode 1' 'order 0000000000000007' 'flags 10' \
        'reserved 0000000080000040'; sed -n '7,76p' "$state"; printf '%s\n' \
        '@0000000080000010 0f000000000000000000000000000000' \
        '@0000000080000ff0 00000000000000000000000000006465' \
        '@0000000080001000 76696365207472656500000000000000' 'end'; } | cmp - "$state" ||
        fail 'make_state.py: other lines'
    for line in 'x2 fffffffffffffff0' 'x10 000000000000000a' 'x31 000000000000001f' \
        'csr_mstatus 0000000a00001800' 'csr_pmpcfg0 0000000000009f1f' \
        'csr_pmpaddr15 003fffffffffffff' 'csr_mtvec 0000000000000000'; do
        grep -qx "$line" "$state" || fail "make_state.py: no line $line"
    done
    expect_state make_state.py "$state"
    python3 "$contrib/make_state.py" "$state" | cmp - "$state" || fail 'make_state.py: read again'
    python3 "$contrib/make_state.py" "$state" --set x31=0 --blob "0x80000010=$folder/blob" \
        2>"$folder/said" | diff "$state" - >"$folder/changed"
    [ "$(grep -c '^[<>]' "$folder/changed")" -eq 4 ] || fail "make_state.py: $(cat "$folder/changed")"
    grep -q 'is put over bytes of' "$folder/said" || fail "make_state.py: $(cat "$folder/said")"
    for case in 'mie=1 bits 0x1 are always 0' 'sstatus=2 set mstatus' 'mode=2 mode cannot be 2' \
        'pmpcfg2=0x200 W without R' 'satp=0x9000000000000000 its mode is 0 or 8' 'pc=1 pc cannot be' \
        'mstatus=0x1000 MPP is 0, 1 or 3' 'x0=1 x0 cannot be' 'mtvec=zz is no number'; do
        expect_fault "make_state.py --set ${case%% *}" "${case#* }" \
            python3 "$contrib/make_state.py" --set "${case%% *}"
    done
    expect_fault 'make_state.py, a blob outside of RAM' 'give --ram' \
        python3 "$contrib/make_state.py" --blob "0x1000=$folder/blob"
}

# The state in the middle of a trace, by its text, and the trace that goes on from there.
test_state() {
    examples=$tests/examples
    head -n 7 "$examples/interrupt.csv" >"$folder/front.csv"
    "$program" state "$examples/interrupt.hex" "$folder/front.csv" | cmp - "$examples/interrupt.rvstate" ||
        fail 'state: another text than interrupt.rvstate'
    sed -n '1p;8,$p' "$examples/interrupt.csv" | cmp - "$examples/interrupt_rest.csv" ||
        fail 'interrupt_rest.csv is not the rest of interrupt.csv'
    expect 'from a state, at another pc' \
        'differs row 1: csr_mepc_rdata expected 0x0000000080000010 found 0x0000000080000018' \
        "$examples/interrupt.rvstate" "$examples/interrupt_rest.csv" --pc 0x80000010
    sed 's/^mode 3/mode 2/' "$examples/interrupt.rvstate" >"$folder/mode.rvstate"
    expect 'a state that cannot be' 'refused image: line 3: bad line' "$folder/mode.rvstate" \
        "$folder/front.csv"
}

# Lines for all ports that show other columns for each, in any order.
test_port_rows() {
    printf '%s\n' 'rvfi_insn_1,"pc_rdata",note_3, insn ,rvfi_pc_rdata_1' '2,1,"a,""b",,3' '' \
        'z,,,4,' >"$folder/lines.csv"
    python3 "$contrib/port_rows.py" <"$folder/lines.csv" >"$folder/rows.csv" 2>"$folder/said"
    printf '%s\n' 'insn,pc_rdata,note_3' ',1,"a,""b"' '2,3,' '4,,' 'z,,' |
        cmp - "$folder/rows.csv" || fail 'port_rows.py: other rows'
    grep -q '^port_rows.py: 4 rows$' "$folder/said" || fail "port_rows.py: $(cat "$folder/said")"
    printf 'insn,insn_1\n1,2\n3\n' >"$folder/lines.csv"
    expect_fault 'port_rows.py, a line with another number of fields' 'line 3: 1 fields under 2 names' \
        python3 "$contrib/port_rows.py" "$folder/lines.csv"
}

# Rows that are shuffled within a window, and put back.
test_sort() {
    trace=$tests/explain/run.csv sorted=$folder/sorted.csv
    { head -n 1 "$trace"; sed 1d "$trace" | awk '{ held[NR % 5] = $0 } NR % 5 == 0 {
        for (i = 4; i >= 0; i--) print held[i] } END { for (i = NR % 5; i > 0; i--) print held[i] }'
    } >"$folder/shuffled.csv"
    cmp -s "$trace" "$folder/shuffled.csv" && fail 'sort_rows.py: the rows were not shuffled'
    python3 "$contrib/sort_rows.py" "$folder/shuffled.csv" -o "$sorted" --window 6 2>/dev/null
    cmp "$trace" "$sorted" || fail 'sort_rows.py'
    python3 "$contrib/sort_rows.py" --first 0 <"$folder/shuffled.csv" 2>/dev/null | cmp - "$trace" ||
        fail 'sort_rows.py on standard input'
    expect_fault 'sort_rows.py, a window that is too small' 'give a larger --window than 2' \
        python3 "$contrib/sort_rows.py" --window 2 "$folder/shuffled.csv"
    sed '5p' "$trace" >"$folder/twice.csv"
    expect_fault 'sort_rows.py, a row that comes twice' 'comes twice' \
        python3 "$contrib/sort_rows.py" "$folder/twice.csv"
    expect_fault 'sort_rows.py without order' 'there is no column order' \
        python3 "$contrib/sort_rows.py" "$tests/examples/lanes.csv"
}

# A program that ld links with these words, judged from its ELF file and from its text, which does not
# have the entry point.
judge_elf() {
    riscv64-unknown-elf-as -march=rv64ima_zba_zbb_zbs -o "$folder/elf.o" "$tests/elf/program.s" ||
        fail 'as: tests/elf/program.s'
    riscv64-unknown-elf-ld --no-warn-rwx-segments "$@" -o "$folder/elf" "$folder/elf.o" ||
        fail "ld $*"
    riscv64-unknown-elf-objcopy -O verilog "$folder/elf" "$folder/elf.hex" || fail 'objcopy'
    expect "an ELF file, ld $*" 'agrees 5' "$folder/elf" "$tests/elf/run.csv" --bits on
    expect "its text, ld $*" 'agrees 5' "$folder/elf.hex" "$tests/elf/run.csv" --bits on \
        --pc 0x80000008
    python3 "$contrib/make_state.py" "$folder/elf" -o "$folder/elf.rvstate" ||
        fail "its state, ld $*"
    expect_state "its state, ld $*" "$folder/elf.rvstate"
    expect "its state, ld $*" 'agrees 5' "$folder/elf.rvstate" \
        "$tests/elf/run.csv" --bits on
}

test_elf() {
    judge_elf -T "$contrib/link.ld"
    judge_elf -n -Ttext=0x80000000
    expect 'a file to be linked' 'refused image: elf of another kind' "$folder/elf.o" "$tests/elf/run.csv"
    riscv64-unknown-elf-ld --no-warn-rwx-segments -Ttext=0x80000000 -o "$folder/elf" "$folder/elf.o"
    expect 'headers in a segment' 'refused image: elf segment 1: outside RAM' "$folder/elf" \
        "$tests/elf/run.csv"
}

# Files that ld of Linux links, whose addresses are to be chosen when they are loaded.
test_moving_elf() {
    riscv64-unknown-elf-as -march=rv64ima_zba_zbb_zbs -o "$folder/elf.o" "$tests/elf/program.s"
    for kind in -pie -shared; do
        riscv64-linux-gnu-ld $kind -o "$folder/elf" "$folder/elf.o" || fail "ld $kind"
        expect "ld $kind" 'refused image: elf of another kind' "$folder/elf" "$tests/elf/run.csv"
    done
}

# Several segments: one that is loaded elsewhere than it runs, one with bytes that are not in the file.
# The state at the end is the same from the ELF file and from its text, and is read again.
test_segments() {
    elf=$folder/segments.elf out=$folder/segments.csv io=0x100000:0x1000
    riscv64-unknown-elf-gcc -march=rv64imac_zicsr_zifencei -mabi=lp64 -mcmodel=medany -O1 -Wall -Wextra \
        -Werror -ffreestanding -nostdlib -mstrict-align -Wl,--build-id=none \
        -T "$tests/elf/segments.ld" -o "$elf" "$tests/elf/segments.c" || fail 'segments.c'
    riscv64-unknown-elf-objcopy -O verilog "$elf" "$elf.hex"
    entry=$(riscv64-unknown-elf-objdump -f "$elf" | sed -n 's/^start address //p')
    timeout 60 qemu-system-riscv64 -M virt -display none -monitor none -serial null -bios none \
        -cpu rv64,f=off,d=off,h=off,sstc=off,zba=off,zbb=off,zbc=off,zbs=off -singlestep \
        -device "loader,file=$elf,cpu-num=0" -d in_asm,cpu,exec,int,nochain -D "$folder/log"
    python3 "$contrib/qemu_log.py" "$folder/log" --pc "$entry" -o "$out" 2>/dev/null ||
        fail 'qemu_log.py: segments.c'
    rows=$(($(wc -l <"$out") - 1))
    expect 'several segments' "agrees $rows" "$elf" "$out" --io $io
    expect 'several segments as text' "agrees $rows" "$elf.hex" "$out" --io $io --pc "$entry"
    "$program" state "$elf" "$out" --io $io >"$folder/segments.rvstate"
    grep -qx 'x11 0000000000000000' "$folder/segments.rvstate" || fail 'segments.c: main did not give 0'
    "$program" state "$elf.hex" "$out" --io $io --pc "$entry" | cmp - "$folder/segments.rvstate" ||
        fail 'several segments: another memory than that of their text'
    expect_state 'several segments' "$folder/segments.rvstate"
}

# From C to a verdict.
test_c() {
    cp "$tests/c/program.c" "$folder/program.c"
    make -s -C "$folder" -f "$contrib/Makefile" program.hex program.csv >"$folder/said" 2>&1 ||
        fail "the Makefile: $(cat "$folder/said")"
    rows=$(($(wc -l <"$folder/program.csv") - 1))
    [ "$rows" -gt 500 ] || fail "the program in C carried out $rows rows"
    expect 'a program in C' "agrees $rows" "$folder/program.hex" "$folder/program.csv" \
        --io 0x100000:0x1000
    expect 'its ELF file' "agrees $rows" "$folder/program.elf" "$folder/program.csv" \
        --io 0x100000:0x1000
    # main gave 0, so that tohost is stored as 1
    python3 "$contrib/cover.py" --lint "$folder/program.csv" >"$folder/said" ||
        fail "cover.py: $(cat "$folder/said")"
    [ "$(tail -n 6 "$folder/program.csv" | grep -c ',0xa,0x1,')" -eq 1 ] ||
        fail 'the program in C: main did not give 0'
}

# A difference ends a simulation that writes into a pipe.
test_live() {
    iverilog -g2012 -s endless -o "$folder/endless" "$tests/rvfi/endless.sv" "$contrib/rvfi_csv.sv" \
        2>/dev/null
    printf '@80000000\n6f 00 00 00\n' >"$folder/endless.hex"
    mkfifo "$folder/pipe"
    vvp -n "$folder/endless" "+rvfi_csv=$folder/pipe" 2>/dev/null &
    simulation=$!
    expect live 'differs row 1001: pc_wdata expected 0x0000000080000000 found 0x0000000080000004' \
        "$folder/endless.hex" "$folder/pipe" --segment 64
    wait "$simulation"
    [ $? -eq 141 ] || fail 'live: the simulation did not end'
}

# What make install puts into a folder.
test_install() {
    make -s -C "$contrib/.." install PREFIX="$folder/installed" PROGRAM="$program" >"$folder/said" 2>&1 ||
        fail "make install: $(cat "$folder/said")"
    found=$("$folder/installed/bin/rvjudge" judge "$tests/examples/interrupt.hex" \
        "$tests/examples/interrupt.csv")
    [ "$found" = 'agrees 9' ] || fail "the installed program: $found"
    "$folder/installed/bin/rvjudge" --version >/dev/null 2>"$folder/said"
    grep -q '^sha256 [0-9a-f]*$' "$folder/said" || fail "the version: $(cat "$folder/said")"
    "$folder/installed/bin/rvjudge" judge image trace --workers 65 >/dev/null 2>"$folder/said"
    grep -qx 'rvjudge: --workers: 65 is not in 1 to 64' "$folder/said" ||
        fail "the installed program, refused words: $(cat "$folder/said")"
    for word in --pc --window 'refused words'; do
        sed 's/\\-/-/g' "$folder/installed/share/man/man1/rvjudge.1" | grep -qe "$word" ||
            fail "the manual page has no $word"
    done
    bash -c '. "$1"; COMP_WORDS=(rvjudge judge --w) COMP_CWORD=2; _rvjudge; echo "${COMPREPLY[*]}"' \
        '' "$folder/installed/share/bash-completion/completions/rvjudge" >"$folder/said" 2>&1
    [ "$(cat "$folder/said")" = '--workers --window' ] ||
        fail "completion for bash: $(cat "$folder/said")"
    make -s -C "$contrib/.." uninstall PREFIX="$folder/installed"
    [ -z "$(find "$folder/installed" -type f)" ] || fail 'make uninstall left files'
}

if can_run 'the documents' python3; then
    [ -n "$knows_harts" ] ||
        leave_out 'the documents: commands of several harts, as the judge does not know --harts'
    python3 "$tests/documents.py" "$program" "$([ -n "$knows_harts" ] || echo --harts)" ||
        fail "the documents"
fi
if can_run 'regress.py' python3 gzip; then
    python3 "$tests/regress_test.py" "$program" || fail "regress.py"
fi
if can_run 'explain.py' python3 riscv64-unknown-elf-objdump gzip && has_elftools 'explain.py'; then
    python3 "$tests/explain_test.py" "$program" || fail "explain.py"
fi
if can_run 'cover.py' python3; then
    python3 "$tests/cover_test.py" || fail "cover.py"
fi
can_run 'logs of Spike' python3 && test_spike
can_run 'the stored log of qemu' python3 gzip && test_qemu_log
can_run 'a run in qemu' python3 riscv64-unknown-elf-gcc riscv64-unknown-elf-objcopy \
    qemu-system-riscv64 && has_version 'a run in qemu' qemu-system-riscv64 'version 7\.' &&
    test_qemu && test_qemu_choices && test_qemu_registers && test_qemu_bits && test_qemu_rom &&
    test_qemu_translated_loads
if can_run 'rows of several harts' python3; then
    if [ -n "$knows_harts" ]; then
        python3 "$tests/harts_test.py" "$program" || fail "rows of several harts"
    else
        leave_out 'judged rows of several harts, as the judge does not know --harts'
        python3 "$tests/harts_test.py" || fail "rows of several harts"
    fi
fi
can_run 'several harts in qemu' python3 riscv64-unknown-elf-as riscv64-unknown-elf-ld timeout \
    riscv64-unknown-elf-objcopy gzip qemu-system-riscv64 &&
    has_version 'several harts in qemu' qemu-system-riscv64 'version 7\.' && test_qemu_harts
if can_run 'the start of firmware' python3; then
    python3 "$tests/boot_test.py" || fail "the start of firmware"
fi
can_run 'firmware in qemu' python3 qemu-system-riscv64 mkfifo timeout &&
    has_version 'firmware in qemu' qemu-system-riscv64 'version 7\.' && test_boot
can_run 'rvfi_csv.sv in Icarus Verilog' iverilog vvp python3 && test_iverilog
can_run 'a trace that is judged live' iverilog vvp mkfifo && test_live
test_state
can_run 'make_state.py' python3 && test_make_state
if can_run 'registers of cores' python3; then
    python3 "$tests/registers_test.py" "$program" || fail "registers of cores"
fi
if can_run 'pieces.py' python3; then
    python3 "$tests/pieces_test.py" "$program" || fail "pieces.py"
fi
can_run 'port_rows.py' python3 && test_port_rows
can_run 'sort_rows.py' python3 && test_sort
can_run 'an ELF file' python3 riscv64-unknown-elf-as riscv64-unknown-elf-ld riscv64-unknown-elf-objcopy &&
    test_elf
can_run 'files that are moved when they are loaded' riscv64-unknown-elf-as riscv64-linux-gnu-ld &&
    test_moving_elf
can_run 'several segments' python3 riscv64-unknown-elf-gcc riscv64-unknown-elf-objcopy \
    riscv64-unknown-elf-objdump qemu-system-riscv64 &&
    has_version 'several segments' qemu-system-riscv64 'version 7\.' && test_segments
can_run 'a program in C' python3 make riscv64-unknown-elf-gcc riscv64-unknown-elf-objcopy \
    qemu-system-riscv64 && has_version 'a program in C' qemu-system-riscv64 'version 7\.' && test_c
can_run 'rvfi_csv.sv in Verilator' verilator make g++ python3 &&
    has_version 'rvfi_csv.sv in Verilator' verilator 'Verilator [5-9]' && test_verilator
can_run 'regress.py with GNU parallel' parallel
can_run 'regress.py with .csv.zst' zstd
can_run 'the words' python3 && { python3 "$tests/words_test.py" "$program" || fail 'the words'; }
if can_run 'what bin/ tells' python3 pgrep; then
    sh "$tests/words_test.sh" "$program" || fail "what bin/ tells"
fi
if can_run 'the progress line' python3; then
    python3 "$tests/progress_test.py" || fail "the progress line"
fi
can_run 'the installed files' make python3 git && test_install
[ "$failed" -eq 0 ] && echo "contrib: ok"
if [ -n "$left_out" ]; then
    echo "contrib: left out (sh contrib/tests/setup.sh installs tools that are missing):$left_out"
else
    echo "contrib: no test was left out"
fi
exit "$failed"
