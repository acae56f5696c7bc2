#!/usr/bin/env bash
# Runs a program that does what perfrec does, with the arguments that it knows and with others:
#
#     bindings/words_test.sh PROGRAM [WORD ..]
#
# The arguments, after PROGRAM WORD .., are `little|big|native LIMIT [attr]`. LIMIT is one or more ASCII digits,
# with a value of at most 2^64 - 1. With any others the program has to print its usage, one line, on standard
# error and nothing on standard output, and end with status 2. The last line is how many were tried, and how
# many failed; the status is 0 if none did.
set -u
if [ $# -lt 1 ]; then
    echo "usage: bindings/words_test.sh PROGRAM [WORD ..]" >&2
    exit 2
fi
program=("$@")
work=$(mktemp -d) || exit 2
trap 'rm -rf "$work"' EXIT
tried=0
failed=0

# Compares what the program does with some words over a stream: check STREAM STATUS OUTPUT ERROR [WORD ..]
check() {
    stream=$1 status=$2 output=$3 error=$4
    shift 4
    "${program[@]}" "$@" <"$work/$stream" >"$work/found.out" 2>"$work/found.err"
    found=$?
    # shellcheck disable=SC2059  # the texts have line feeds as \n
    printf "$output" >"$work/out" && printf "$error" >"$work/err"
    tried=$((tried + 1))
    if [ $found != "$status" ] || ! cmp -s "$work/out" "$work/found.out" || ! cmp -s "$work/err" "$work/found.err"; then
        failed=$((failed + 1))
        echo "FAILED: status $found, not $status, or another text, of:$(printf " '%s'" "$@")"
        head -n 3 "$work/found.out" "$work/found.err"
    fi
}

# Other words: refuses [WORD ..]
refuses() {
    check little 2 '' 'usage: perfrec little|big|native LIMIT [attr]\n' "$@"
}

# Words that are a command: accepts STREAM OUTPUT WORD ..
accepts() {
    stream=$1 output=$2
    shift 2
    check "$stream" 0 "$output" '' "$@"
}

# A record in both orders, and a record after an attribute of 64 bytes.
printf '\15\0\0\0\0\0\20\0\5\0\0\0\0\0\0\0' >"$work/little"
printf '\0\0\0\15\0\0\0\20\0\0\0\0\0\0\0\5' >"$work/big"
{
    printf '\0\0\0\0\100\0\0\0'
    head -c 56 /dev/zero
    cat "$work/little"
} >"$work/attr"
line='0 13 0 16 LostSamples lost=5\n'
greatest=18446744073709551615
zeros=$(printf '%05000d' 0)

for limit in 10 007 2 $greatest "00$greatest" "${zeros}3"; do
    accepts little "${line}end done\n" little "$limit"
    accepts little "${line}end done\n" native "$limit"
    accepts big "${line}end done\n" big "$limit"
    accepts attr "${line}end done\n" little "$limit" attr
done
accepts little "${line}end limit\n" little 1
accepts little 'end limit\n' little 0
accepts little 'end limit\n' native "$zeros"
accepts attr "${line}end limit\n" native 1 attr
accepts attr 'end limit\n' native 0 attr

# No digits, no limit but what other languages read as one, 2^64 and more, digits of other scripts.
no_limits=('' x -1 +1 -0 ' 1' '1 ' $'1\n' $'\t1' 0x10 0b1 0o7 1_0 1.0 1e1 '1,0' 1x x1 --help attr little
    18446744073709551616 0018446744073709551616 18446744073709551620 99999999999999999999 100000000000000000000
    340282366920938463463374607431768211456 "1$zeros"
    $'\331\241\331\240' $'1\331\240' $'\357\274\221' $'\340\245\247' $'\302\262')
for limit in "${no_limits[@]}"; do
    refuses little "$limit"
    refuses big "$limit" attr
done
refuses
for order in little big native; do
    refuses $order
    refuses $order attr 1
    refuses attr $order 1
    refuses 1 $order
    refuses 1 $order attr
    refuses "$order 1"
    refuses "$order 1" attr
    refuses $order '1 attr'
    for third in '' ATTR Attr att attrs ' attr' 'attr ' $'attr\n' 1 little --attr --help; do
        refuses $order 1 "$third"
    done
    for fourth in attr '' 1 --help; do
        refuses $order 1 attr "$fourth"
    done
    refuses --help $order 1
done
for order in middle Little BIG Native l littl 'little ' ' little' $'little\n' '' 1 attr --help -h --; do
    refuses "$order"
    refuses "$order" 3
    refuses "$order" 3 attr
done
echo "$tried lines of words, $failed failed"
[ $failed = 0 ]
