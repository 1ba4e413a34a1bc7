#!/bin/sh
# Prints the instructions of one call, proved and reference, for each case of the benchmark; then those of the check
# beside the account, both proved.
# A run of 11 calls less a run of 1 call is 10 calls: what else the program does is in both.
set -eu
cd "$(dirname "$0")"
cargo build --offline --release --quiet -p doarpezwim --example speed
# On x86-64 callgrind takes each byte of a `rep stosb` or `rep movsb` for an instruction: the C library does without.
export GLIBC_TUNABLES=glibc.cpu.x86_rep_stosb_threshold=1000000000:glibc.cpu.x86_rep_movsb_threshold=1000000000

collected() {
    valgrind --tool=callgrind --callgrind-out-file=/dev/null target/release/examples/speed callgrind "$@" 2>&1 |
        sed -n 's/.*Collected : //p'
}

per_call() {
    echo $((($(collected "$1" "$2" 11) - $(collected "$1" "$2" 1)) / 10))
}

quotient() {
    awk "BEGIN { printf \"%.2f\", $1 / $2 }"
}

printf '%-8s %12s %12s %7s\n' case proved reference ratio
for case in line lines dark days water gap gaps text; do
    proved=$(per_call "$case" proved)
    reference=$(per_call "$case" reference)
    printf '%-8s %12s %12s %7s\n' "$case" "$proved" "$reference" "$(quotient "$proved" "$reference")"
    case $case in
    line) one_proved=$proved one_reference=$reference ;;
    lines) all_proved=$proved all_reference=$reference ;;
    esac
    case $case in
    line | lines | dark | days) accounts="${accounts:-} $case=$proved" ;;
    esac
done
echo "48 lines over 48 x one line: proved $(quotient "$all_proved" "$((48 * one_proved))")," \
    "reference $(quotient "$all_reference" "$((48 * one_reference))")"

printf '\n%-8s %12s %12s %7s\n' case check account ratio
for account in $accounts; do
    case=${account%=*}
    account=${account#*=}
    check=$(per_call "$case" check)
    printf '%-8s %12s %12s %7s\n' "$case" "$check" "$account" "$(quotient "$check" "$account")"
done
