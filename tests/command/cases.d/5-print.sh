# Printing: the lines of the book printer, or a refusal and nothing else.
# shellcheck shell=bash disable=SC2034,SC2154 # tests/command/cases has the names

for input in "$root"/tests/printer/*.in; do
    wanted=${input%.in}.out
    if number=$(grep -oE '^REFUSED [0-9]+$' "$wanted"); then
        try 1 print "$input"
        quiet
        told ":0: refused ${number#REFUSED }: "
    else
        try 0 print "$input"
        same out "$wanted"
        told -
    fi
done
try 0 print - <ledger.book
same out "$tests/printed/ledger"
try 1 print ledger
told_first 'ledger:0: refused 50: book breaks its layout'
try 1 print empty
try 1 print /dev/zero
told_first '/dev/zero:0: refused 57: input over 65,536 bytes'
try 2 print nosuch
told_first "nosuch: can't be read: No such file or directory"

# A book of just 65,536 bytes is printed, one of a byte more is not.
for last in 34 35; do
    {
        echo ' START 0'
        for ((i = 0; i < 249; i++)); do echo " DC CL256'A'"; done
        printf ' DC CL%s\047A\047\n END\n' $last
    } >limit
    try 0 assemble limit -o "limit$last.book"
done
try 0 print limit34.book
said '0000FFFC 01 00 0000'
[ "$(wc -l <out)" -eq 251 ] || wrong 'not all records are printed'
try 1 print limit35.book
told_first 'limit35.book:0: refused 57: input over 65,536 bytes'
quiet
