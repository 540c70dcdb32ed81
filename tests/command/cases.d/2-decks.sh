# Decks of every shape, good and bad.
# shellcheck shell=bash disable=SC2034,SC2154 # tests/command/cases has the names

cp "$root/examples/ledger" ledger
try 0 assemble ledger
said 'ledger: 31 cards of 80 columns, a card a line: a book of 208 bytes, 13 names'
said 'give -o BOOK'
told -
try 0 assemble ledger -o ledger.book
said 'a book of 208 bytes, 13 names'
told -
[ "$(wc -c <ledger.book)" -eq 208 ] || wrong 'the book is not 208 bytes long'
try 0 assemble -o to-stdout.book -- ledger
same to-stdout.book ledger.book
try 0 assemble ledger -o -
same out ledger.book
told 'ledger: 31 cards of 80 columns, a card a line: a book of 208 bytes, 13 names'
try 0 assemble - -o again.book <ledger
said 'standard input: 31 cards'
same again.book ledger.book

# The same deck in other shapes gives the same book.
# shape FILE WORD...
shape() {
    rm -f again.book
    try 0 assemble "$@" -o again.book
    same again.book ledger.book
}
sed 's/$/\r/' ledger >crlf
shape crlf
said 'crlf: 31 cards of 80 columns, a card a line'
head -c -1 ledger >no-last-lf
shape no-last-lf
head -c -1 crlf >cr-at-the-end
try 2 assemble cr-at-the-end
told 'carriage return that ends no line'
punch 80 ledger >cards80
shape cards80
said 'cards80: 31 cards of 80 columns, whole cards without line ends'
punch 96 ledger >cards96
shape cards96 --width 96
said '31 cards of 96 columns, whole cards'
shape ledger --width=96
while IFS= read -r line; do printf '%-71.71s\377\000\tabcd\015~' "$line"; done <ledger >noise80
shape noise80
while IFS= read -r line; do printf '%-79.79s\n' "$line"; done <ledger >lf-in-80
shape lf-in-80
while IFS= read -r line; do printf '%-80.80s\n' "$line"; done <ledger >full-lines
shape full-lines
while IFS= read -r line; do printf '%-96.96s\r\n' "$line"; done <ledger >full-lines-96
shape full-lines-96 --width 96
while IFS= read -r line; do printf '%-74.74s\n     ' "$line"; done <ledger >lf-in-75
try 2 assemble lf-in-75
told_first 'lf-in-75: can be read as a card a line and as whole cards of 80 columns, and they differ'
cp ledger ' a name'
shape ' a name'
cp ledger ./-ledger
shape ./-ledger
try 0 assemble -o again.book -- -ledger
same again.book ledger.book
try 2 assemble -ledger

# What is not whole cards, or not of this width, or no deck.
try 1 assemble cards96
told_first 'cards96:0: refused 1: width not 80 or 96, or source not whole cards'
told '--width 96'
try 1 assemble cards80 --width 96
printf ' START 0' >no-lf
try 1 assemble no-lf
told_first 'no-lf:0: refused 1: width not 80 or 96, or source not whole cards'
told 'keep a card a line'
: >empty
try 1 assemble empty
told_first 'empty:0: refused 9: no END'
told 'The deck is empty.'
try 1 assemble - </dev/null
told_first 'standard input:0: refused 9: no END'
head -n 20 ledger >broken-off
try 1 assemble - <broken-off
told_first 'standard input:0: refused 9: no END'
{ cat ledger; echo; } >blank-behind
try 1 assemble blank-behind
told_first 'blank-behind:32: refused 9: a card after END'
told 'blank lines'
printf '\n' >one-lf
try 1 assemble one-lf
told_first 'one-lf:1: refused 12: operation absent or unknown'

# Refusals, with the card's text.
try 1 assemble "$root/examples/mistyped" -o mistyped.book
quiet
absent mistyped.book
printf '%s\n' "$root/examples/mistyped:5: refused 18: name not defined" '       AZ    TOTLE,ZERO' \
    'Mend the spelling, or define the name on a card; for EQU and ORG, on an earlier' 'card.' >wanted
same err wanted
punch 80 "$root/examples/mistyped" >mistyped
try 1 assemble mistyped
told_first 'mistyped:5: refused 18: name not defined'
[ "$(sed -n 2p err)" = '       AZ    TOTLE,ZERO' ] || wrong 'the card is not told'
printf ' START 0\n* lower\n END\n' >lower
try 1 assemble lower
told_first 'lower:2: refused 10: byte not accepted'
printf ' START 0\n DC C\000\032A\n END\n' >control
try 1 assemble control
told_first 'control:2: refused 10: byte not accepted'
told ' DC C\x00\x1AA'

# Lines that are no cards: a message with the line, no guess.
printf ' START 0\n\tEND\n' >tab
try 2 assemble tab -o tab.book
told_first 'tab:2: column 1 is a TAB, which is no character of a card'
absent tab.book
printf ' START 0\n DC C\047\303\234\047\n END\n' >umlaut
try 2 assemble umlaut
told_first 'umlaut:2: column 7 is byte C3, which is not ASCII'
printf '\357\273\277 START 0\n END\n' >mark
try 2 assemble mark
told_first 'mark:1: column 1 is byte EF, which is not ASCII'
printf ' START 0\r END\n' >mac
try 2 assemble mac
told_first 'mac:1: column 9 is a carriage return that ends no line'
{ echo ' START 0'; printf '%-81s\n' '*'; echo ' END'; } >long
try 2 assemble long
told_first 'long:2: the line has 81 characters, and a card has 80'
told '--width 96'
try 0 assemble long --width 96
{ echo ' START 0'; printf '%-97s\n' '*'; echo ' END'; } >longer
try 2 assemble longer --width 96
told_first 'longer:2: the line has 97 characters, and a card has 96'

# Many cards, and files that are no decks at all.
{ echo ' START 0'; yes '*' | head -n 3998; echo ' END'; } >cards4000
try 0 assemble cards4000
said '4000 cards'
{ cat cards4000; echo '*'; } >cards4001
try 1 assemble cards4001
told_first 'cards4001:0: refused 2: over 4,000 cards'
punch 80 cards4001 >whole4001
try 1 assemble whole4001
told_first 'whole4001:0: refused 2: over 4,000 cards'
yes '* A COMMENT' | head -c 3000000 >huge
try 2 assemble huge
told_first 'huge: longer than 1048576 bytes, and no deck of 4,000 cards is'
truncate -s 5G sparse
try 2 assemble sparse
try 2 assemble /dev/zero
rm sparse huge
try 2 assemble nosuch
told_first "nosuch: can't be read: No such file or directory"
try 2 assemble .
told_first ".: can't be read: Is a directory"
try 2 assemble - <.
told_first "standard input: can't be read: Is a directory"
