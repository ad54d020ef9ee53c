# shellcheck shell=bash disable=SC2034
# What the tests of programs have in common. A script tools/test-NAME tests the program NAME, which
# reads sheet.bin and stim.bin in the folder that it is run in:
#   . "$(dirname "$0")/programs.sh"
# reads this file. The script is then in target/NAME, which is empty, and $program is the program:
# its first word, or target/bin/NAME (.ci/run programs). It says what is particular to the program,
#   writes=FILE      the file that the program writes where nothing is refused; '' for none
#   others() { .. }  puts the files that the program reads beside those two into a new folder
# and ends with `finish`. What is expected is worked out by hand from docs/SHEETS.md.
set -euo pipefail
export LC_ALL=C
# The usual limit, so that a program that needs more fails here too.
ulimit -S -s 8192
cd "$(dirname "$0")/.."
tested=${0##*/test-}
program=$(realpath "${1:-target/bin/$tested}")
sample=$PWD/data
work=$PWD/target/$tested
rm -rf "$work"
mkdir -p "$work"
cd "$work"

writes=''
others() { :; }

passed=0 failed=0
tally() { # NAME STATUS WHAT
    if [ "$2" -eq 0 ]; then
        passed=$((passed + 1))
    else
        failed=$((failed + 1))
        echo "failed: $1: $3"
    fi
}

# The last line, and the status.
finish() {
    echo "$passed passed, $failed failed"
    [ "$failed" -eq 0 ]
}

# Each record as its words in decimal, low byte first, those not given 0.
records() { # RECORD..
    local record words word byte text=''
    for record in "$@"; do
        read -r -a words <<<"$record 0 0 0 0 0 0"
        for word in "${words[@]:0:6}"; do
            printf -v byte '\\x%02x\\x%02x' $((word % 256)) $((word / 256))
            text+=$byte
        done
    done
    printf '%b' "$text"
}

# A byte so many times.
repeated() { # BYTE COUNT
    head -c "$2" /dev/zero | tr '\0' "\\$(printf %03o "$1")"
}

# A new folder with T and 1 2 1, and what else the program reads, for a test to change.
begin() { # NAME
    name=$1
    folder=$work/${1//[^A-Za-z0-9]/-}
    mkdir "$folder"
    cd "$folder"
    cp "$sample/T.bin" sheet.bin
    cp "$sample/stim.bin" stim.bin
    others
}

# Sets a word of the sheet.
change() { # RECORD WORD VALUE
    records "$3" | head -c 2 |
        dd of=sheet.bin bs=1 seek=$((12 * $1 + 2 * $2)) conv=notrunc status=none
}

# The pair feedback of docs/SHEETS.md: 1 1, of type 2, in each cycle.
two_leaves() {
    records '1 1 1 3 10' '16 2 2' '17 0 1 1' '38 0 2 4 9' '34 0 5 7' '32 0 1 6' '64 0 1' \
        '35 0 8' '33' '33' >sheet.bin
}

# AND of docs/SHEETS.md: the input has two leaves.
two_leaves_of_input() {
    records '1 1 2 3 12' '16 2 2' '17 0 1 1' '39 0 4 8 10 5' '33' '50 0 6 7' '49 0 1 1' \
        '49 0 1 1' '32 0 1 9' '64 0 1' '32 0 1 11' '64 0 2' >sheet.bin
}

# The input as it comes, any byte.
as_it_comes() {
    records '1 1 1 2 3' '16 0 255' '33' >sheet.bin
}

# The input, a bit, in 64 leaves: each LET's name is a pair of the name around it.
leaves_64() {
    records '1 1 1 8 31' '16 2 2' '17 3 1 1' '17 4 2 2' '17 5 3 3' '17 6 4 4' '17 7 5 5' \
        '17 0 6 6' '37 0 9 12' '34 0 10 11' '33' '33' '37 0 13 16' '34 0 14 15' '33' '33' \
        '37 0 17 20' '34 0 18 19' '33' '33' '37 0 21 24' '34 0 22 23' '33' '33' \
        '37 0 25 28' '34 0 26 27' '33' '33' '34 0 29 30' '33' '33' >sheet.bin
}

# A sheet of 4,096 records, most of them types: the input as it comes.
longest_sheet() {
    local k types=()
    if [ ! -f "$work/longest" ]; then
        for k in {2..4094}; do
            types+=("16 $k 2")
        done
        records '1 1 1 4095 4096' "${types[@]}" '16 0 2' '33' >"$work/longest"
        [ "$(stat -c %s "$work/longest")" -eq 49152 ] ||
            { echo 'the longest sheet has another length'; exit 1; }
    fi
    cp "$work/longest" sheet.bin
}

# What the folder holds: names, and of files and folders also their times and bytes, of which those
# of very long files are not read. Whatever is written, made or removed shows.
held() {
    find . \( -type f -o -type d \) -printf '%p %y %i %s %T@ %C@\n' -o -printf '%p %y %i %l\n' |
        sort
    find . -type f -size -16M -exec cksum {} + 2>/dev/null | sort -k 3
}

# Runs the program, through a command if there is one, and compares what it printed. A program that
# writes no file leaves the folder as it was.
prints() { # TEXT [COMMAND..]
    local text=$1 status=0 before
    shift
    before=$(held)
    timeout 60 "$@" "$program" >../out 2>../errors </dev/null || status=$?
    tally "$name" "$status" "status $status"
    printf '%s\n' "$text" | cmp -s - ../out && status=0 || status=1
    tally "$name" "$status" "printed $(head -c 200 ../out | tr '\n' '|')"
    [ ! -s ../errors ] && status=0 || status=1
    tally "$name" "$status" "wrote to standard error: $(head -c 200 ../errors)"
    [ -n "$writes" ] || leaves "$before"
}

# The stack that docs/SHEETS.md says is enough, with no more of an environment than it allows for;
# and what it says that the program needs on T and 1 2 1, in KiB, and 10 KiB, since where a stack
# begins differs by up to 8 KiB from run to run.
stated_stack() { # TEXT NEED
    begin 'the stated stack'
    prints "$1" env -i bash -c 'ulimit -S -s 4608; exec "$0"'
    begin 'the stack that T needs'
    prints "$1" env -i bash -c "ulimit -S -s $(($2 + 10)); exec \"\$0\""
}

# Runs the program into a pipe that nobody reads. It ends by that signal, unless it was started with
# the signal ignored.
unheard() {
    local status=0
    mkfifo ../pipe
    exec 3<>../pipe 4>../pipe 3<&-
    timeout 60 "$program" </dev/null >&4 2>../errors || status=$?
    exec 4>&-
    rm ../pipe
    case $status in
        0 | 141) tally "$name" 0 '' ;;
        *) tally "$name" 1 "status $status" ;;
    esac
}

# A program that writes no file leaves the folder as it was also where nobody reads what it prints,
# or there is no room for that.
unread() {
    local before
    begin 'nobody reads'
    before=$(held)
    unheard
    { timeout 60 "$program" </dev/null || true; } | head -c 0
    timeout 60 "$program" </dev/null >/dev/full || tally "$name" 1 "status $? on a full device"
    timeout 60 "$program" </dev/null >&- || tally "$name" 1 "status $? with no output"
    leaves "$before"
}

# The folder holds what it held.
leaves() { # HELD
    local now
    now=$(held)
    [ "$now" = "$1" ] && tally "$name" 0 '' ||
        tally "$name" 1 "the folder changed: $(diff <(echo "$1") <(echo "$now") | tr '\n' '|')"
}

# What a program that writes no file prints, with no next.bin and beside an old one.
prints_beside() { # TEXT [COMMAND..]
    prints "$@"
    printf 'old' >next.bin
    touch -d '2001-01-01' next.bin
    prints "$@"
    rm next.bin
}

# The folder holds these files and no other.
only() { # FILE..
    local there
    there=$(ls -A)
    [ "$there" = "$(printf '%s\n' "$@" | sort)" ] && tally "$name" 0 '' ||
        tally "$name" 1 "the folder holds: ${there//$'\n'/ }"
}

# The program's one line of a refusal, which leaves the folder as it was: with no next.bin none is
# made, and an old one stays as it is.
refuses() { # CODE PLACE [COMMAND..]
    local line="refused $1 at $2" before
    shift 2
    before=$(held)
    prints "$line" "$@"
    leaves "$before"
    printf 'old' >next.bin
    touch -d '2001-01-01' next.bin
    before=$(held)
    prints "$line" "$@"
    leaves "$before"
}

# Codes 1 to 9 as in the tests in C.
refusals() {
    begin 'code 1, empty'
    : >sheet.bin
    refuses 1 0

    begin 'code 1, a byte short'
    head -c 203 "$sample/T.bin" >sheet.bin
    refuses 1 0

    begin 'code 2'
    change 0 5 1
    refuses 2 0

    begin 'code 3'
    change 4 2 256
    refuses 3 4

    begin 'code 4'
    change 2 4 15
    refuses 4 15

    begin 'code 5'
    records '1 1 1 4 5' '16 2 2' '17 3 1 1' '17 0 1 1' '33' >sheet.bin
    refuses 5 3

    # Record 10 is the defining part of the fourth feedback.
    begin 'code 6'
    records '1 1 1 2 11' '16 0 2' '38 0 1 4 3' '33' '38 0 1 6 5' '33' '38 0 1 8 7' '33' \
        '38 0 1 10 9' '33' '33' >sheet.bin
    refuses 6 10

    begin 'code 7'
    change 16 2 2
    refuses 7 16

    begin 'code 8, half a cycle'
    records '1 1 2 3 4' '16 2 2' '17 0 1 1' '33' >sheet.bin
    refuses 8 0

    begin 'code 9'
    printf '\x01\x02\x03' >stim.bin
    refuses 9 2

    begin 'code 1 before 8'
    head -c 203 "$sample/T.bin" >sheet.bin
    repeated 1 65536 >stim.bin
    refuses 1 0

    begin 'code 1 with no cycles'
    head -c 203 "$sample/T.bin" >sheet.bin
    : >stim.bin
    refuses 1 0

    begin 'code 7 with no cycles'
    change 16 2 2
    : >stim.bin
    refuses 7 16

    begin 'code 7 before 9'
    change 16 2 2
    printf '\x09' >stim.bin
    refuses 7 16
}

# Files longer than any accepted length are refused by their code and not cut: what stands before
# the limit would be accepted.
oversized() {
    begin 'a sheet a byte too long'
    longest_sheet
    repeated 0 1 >>sheet.bin
    refuses 1 0

    begin 'a sheet a record too long'
    longest_sheet
    repeated 0 12 >>sheet.bin
    refuses 1 0

    begin 'a sheet of 4 GB and a bit'
    longest_sheet
    truncate -s $((4294967296 + 49152)) sheet.bin
    refuses 1 0

    begin 'a stimulus a byte too long'
    repeated 1 65536 >stim.bin
    refuses 8 0

    begin 'a stimulus of 4 GB and a bit'
    repeated 1 65535 >stim.bin
    truncate -s $((4294967296 + 3)) stim.bin
    refuses 8 0

    begin 'both too long'
    longest_sheet
    repeated 0 12 >>sheet.bin
    repeated 1 65536 >stim.bin
    refuses 1 0
}

# Code 12 goes before all others, and names the sheet first.
missing() {
    begin 'no sheet'
    rm sheet.bin
    refuses 12 1

    begin 'no stimulus'
    rm stim.bin
    refuses 12 2

    begin 'neither'
    rm sheet.bin stim.bin
    refuses 12 1

    begin 'a wrong sheet and no stimulus'
    : >sheet.bin
    rm stim.bin
    refuses 12 2

    begin 'no sheet and a wrong stimulus'
    rm sheet.bin
    printf '\x09' >stim.bin
    refuses 12 1

    begin 'no sheet and an empty stimulus'
    rm sheet.bin
    : >stim.bin
    refuses 12 1

    begin 'a link that leads nowhere'
    rm sheet.bin
    ln -s nowhere sheet.bin
    refuses 12 1

    # These open and cannot be read.
    begin 'a folder for a sheet'
    rm sheet.bin
    mkdir sheet.bin
    refuses 12 1

    begin 'a folder for a stimulus'
    rm stim.bin
    mkdir stim.bin
    refuses 12 2

    begin 'a sheet that gives an error'
    rm sheet.bin
    ln -s /proc/self/mem sheet.bin
    refuses 12 1
}

# What a user who is not root may not open, in tests that run the program through "${as[@]}". Root
# becomes nobody for this; false where nobody cannot get here.
as=()
as_nobody() {
    as=()
    [ "$(id -u)" -eq 0 ] || return 0
    as=(setpriv --reuid=65534 --regid=65534 --clear-groups)
    begin 'nobody'
    if ! "${as[@]}" test -x "$program" 2>/dev/null || ! "${as[@]}" test -r sheet.bin; then
        echo 'skipped: permissions, since nobody cannot get at the program'
        return 1
    fi
}

# A sheet and a stimulus that may not be read.
unreadable() {
    begin 'a sheet that may not be read'
    chmod 0 sheet.bin
    refuses 12 1 "${as[@]}"

    begin 'a stimulus that may not be read'
    chmod 0 stim.bin
    refuses 12 2 "${as[@]}"
}

# 65,535 cycles do not cost 65,535 system calls; the calls are in ../trace. False where they cannot
# be traced.
system_calls() {
    local count
    if ! strace -o ../trace true 2>/dev/null; then
        echo 'skipped: system calls, since there is no strace'
        return 1
    fi
    strace -o ../trace "$program" >../out || tally "$name" 1 "status $?"
    count=$(grep -c '(' ../trace)
    echo "system calls for 65,535 cycles: $count, of them $(grep -c '^write' ../trace) to write" \
        "$(stat -c %s ../out) bytes"
    [ "$count" -le 200 ] && tally "$name" 0 '' || tally "$name" 1 "$count of them"
}

# By ../trace the program opened these files of the folder, in this order, and none to write.
opened() { # FILE..
    local names
    names=$(sed -nE 's/^(open|openat|creat)\([^"]*"([^"\/]*)".*/\2/p' ../trace | xargs)
    [ "$names" = "$*" ] && tally "$name" 0 '' || tally "$name" 1 "opened: $names"
    ! grep -E 'O_WRONLY|O_RDWR|O_CREAT|^(creat|rename|unlink|mkdir|truncate)' ../trace &&
        tally "$name" 0 '' || tally "$name" 1 'something was opened to be written'
}
