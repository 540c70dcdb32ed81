# Every example gives the printed book that is stored, or the refusal that it shows.
# shellcheck shell=bash disable=SC2034,SC2154 # tests/command/cases has the names

for example in "$root"/examples/*; do
    stored=$tests/printed/${example##*/}
    width=80
    [ "${example##*/}" != wide ] || width=96
    if [ "${example##*/}" = mistyped ]; then
        try 1 assemble "$example"
        continue
    fi
    try 0 assemble "$example" --width $width -o example.book
    told -
    try 0 print example.book
    same out "$stored"
    # Nothing of it lies behind the statement columns.
    name="columns of $example"
    [ "$width" = 96 ] || ! grep -nE '^.{72}' "$example" >out || wrong 'a line is over 71 characters long'
done
try 2 assemble "$root/examples/wide"
told 'wide:1: the line has 96 characters, and a card has 80'
told 'give --width 96'
