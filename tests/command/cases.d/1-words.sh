# Help, misuse and the numbers.
# shellcheck shell=bash disable=SC2034,SC2154 # tests/command/cases has the names

try 2
told 'mersclund assemble DECK [-o BOOK] [--width 80|96]'
for word in --help -h help; do
    try 0 "$word"
    said 'mersclund load BOOK --at HEX [--storage FILE] [-o FILE]'
    told -
done
for one in assemble load print numbers; do
    try 0 $one --help
    said "mersclund $one"
    told -
    try 0 $one -h
done
try 0 assemble nosuch -o x --help
absent x

try 2 asemble deck
told_first 'mersclund: no command asemble; the commands are assemble, load, print and numbers'
try 2 --version
try 2 ''
try 2 assemble
told 'no file was given: DECK'
try 2 load
told 'no file was given: BOOK'
try 2 print
try 2 assemble a b
told 'one file at a time'
try 2 assemble ''
told 'the name of a file is empty'
try 2 assemble a -o
told '-o needs a word behind it: -o BOOK'
try 2 assemble a -o ''
try 2 assemble a -o b -o c
told 'given twice: -o'
try 2 assemble a --at 0
told 'no option --at'
try 2 assemble -deck
told 'a file whose name begins with - goes behind --, or is written ./-deck'
try 2 assemble a --widt=80
try 2 assemble a --width80
try 2 print a -o b
for width in 0 8 72 081 +80 80x 96,80 ''; do
    try 2 assemble a "--width=$width"
done
try 2 assemble a --width 72
told '--width is 80 or 96'
try 2 load a
told '--at HEX is missing'
for at in 0x10 12345 00000 G -1 ' 1' '1 ' "X'10'" 1h +1 1.0; do
    try 2 load a --at "$at"
    told 'takes 1 to 4 hex digits'
done
try 2 load a --at ''
try 2 load - --at 0 --storage -
told "can't both be standard input"

try 2 numbers all
try 0 numbers
told -
# Every number of the header is there, with a sentence and advice, and no other.
name='mersclund numbers against the header'
grep -oE 'MERSCLUND_REFUSED_[A-Z]+ = [0-9]+' "$root/include/mersclund.h" | grep -oE '[0-9]+$' >wanted
grep -oE '^ ?[0-9]+' out | tr -d ' ' >got
same wanted got
awk '/^ ?[0-9]/ { bare += open; open = 1; next } { open = 0 } END { exit bare + open > 0 }' out ||
    wrong 'a number without advice'
[ "$(wc -L <out)" -le 80 ] || wrong 'a line over 80 characters'
said '18  name not defined (EQU, ORG: not earlier)'
said ' 9  a card after END; or no END (card 0)'
# The manual has each number with the same sentence.
name="mersclund numbers against the manual"
sed -nE 's/^ ?([0-9]+)  (.*)$/| \1 | \2 |/p' out >rows
while IFS= read -r row; do
    grep -qF -e "$row" "$root/docs/MANUAL.md" || wrong "the manual lacks: $row"
done <rows
