# Loading.
# shellcheck shell=bash disable=SC2034,SC2154 # tests/command/cases has the names

try 0 load ledger.book --at 0 -o here
said 'ledger.book: loaded at 0000: 69 bytes stored, entry 0100'
told -
[ "$(wc -c <here)" -eq 65536 ] || wrong 'storage is not 65,536 bytes long'
bytes here 256 6 0460014D0144
bytes here 318 4 012E0014
bytes here 0 4 00000000
for at in 1230 1230; do
    try 0 load ledger.book --at=$at -o there
    bytes there $((0x1330)) 6 0460137D1374
    bytes there $((0x136E)) 4 135E0014
done
for at in a A 0a 000A; do
    try 0 load ledger.book --at $at
    said 'loaded at 000A'
    said 'give -o FILE'
done
try 0 load - --at 0 -o - <ledger.book
same out here
told 'standard input: loaded at 0000: 69 bytes stored, entry 0100'

# The pitfall of the overlay, and a book without an entry.
try 0 assemble "$root/examples/overlay" -o overlay.book
try 0 load overlay.book --at 0100 -o overlaid
said '4 bytes stored, no entry'
bytes overlaid 256 2 00FF

# Storage that is given: shorter, exact, longer, none, and in place.
head -c 400 /dev/zero | tr '\0' Z >given
cp given before
try 0 load ledger.book --at 0 --storage given -o after
[ "$(wc -c <after)" -eq 400 ] || wrong 'storage is not 400 bytes long'
same given before
bytes after 250 8 5A5A5A5A5A5A0460
try 0 load ledger.book --at 0 --storage given -o given
same given after
head -c 325 before >exact
try 0 load ledger.book --at 0 --storage exact
head -c 324 before >short
echo old >kept
try 1 load ledger.book --at 0 --storage short -o kept
told_first 'ledger.book:28: refused 51: text outside storage'
told '0006 001C 0144 00 - F0'
quiet
[ "$(cat kept)" = old ] || wrong 'a refusal changed the output'
try 1 load ledger.book --at 0 --storage /dev/null
told_first 'ledger.book:8: refused 51: text outside storage'
head -c 70000 /dev/zero | tr '\0' Z >large
try 0 load ledger.book --at 0 --storage large -o after
[ "$(wc -c <after)" -eq 70000 ] || wrong 'storage is not 70,000 bytes long'
bytes after 65530 8 5A5A5A5A5A5A5A5A
try 0 load ledger.book --at 0 --storage - -o after <before
bytes after 256 2 0460
try 2 load ledger.book --at 0 --storage nosuch
told_first "nosuch: can't be read: No such file or directory"
try 2 load ledger.book --at 0 --storage /dev/zero
told 'storage counts up to 65,536'

# Refusals of each number.
try 1 load ledger.book --at FFFF
told_first 'ledger.book:8: refused 51: text outside storage'
printf ' START 0\n DC X\0471\047\nX EQU *+65534\n DC A(X)\n END\n' >over
try 0 assemble over -o over.book
try 0 load over.book --at 0
try 1 load over.book --at 1
told_first 'over.book:4: refused 52: field or entry plus displacement over 65535'
told '0008 0004 0001 01 00 FFFF'
printf 'X START X\047FFFF\047\n END X\n' >entry
try 0 assemble entry -o entry.book
try 1 load entry.book --at 1
told_first 'entry.book:0: refused 52: field or entry plus displacement over 65535'
try 1 load ledger --at 0
told_first 'ledger:0: refused 50: book breaks its layout'
try 1 load empty --at 0
told_first 'empty:0: refused 50: book breaks its layout'
head -c 207 ledger.book >broken-book
try 1 load - --at 0 <broken-book
told_first 'standard input:0: refused 50: book breaks its layout'
try 1 load /dev/zero --at 0
told_first '/dev/zero:0: refused 50: book breaks its layout'
try 2 load nosuch --at 0
try 2 load . --at 0

# A book over 65,536 bytes is made and loaded, but not printed.
{
    echo 'X START 0'
    for ((i = 0; i < 1900; i++)); do printf ' DC 128A(X)\n ORG X\n'; done
    echo ' END'
} >long-deck
try 0 assemble long-deck -o long.book
said 'a book of 742908 bytes, 1 name'
try 0 load long.book --at 100 -o long
said '486400 bytes stored, no entry'
bytes long 256 4 01000100
try 1 print long.book
told_first 'long.book:0: refused 57: input over 65,536 bytes'
quiet
