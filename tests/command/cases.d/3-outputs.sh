# Where a book goes, and what becomes of a file that is already there.
# shellcheck shell=bash disable=SC2034,SC2154 # tests/command/cases has the names

echo old >kept
try 1 assemble "$root/examples/mistyped" -o kept
[ "$(cat kept)" = old ] || wrong 'a refusal changed the output'
chmod 640 kept
try 0 assemble ledger -o kept
same kept ledger.book
[ "$(stat -c %a kept)" = 640 ] || wrong "permissions are $(stat -c %a kept), not 640"
(umask 027 && "$command" assemble ledger -o fresh >out 2>err) || wrong 'could not write a new file'
[ "$(stat -c %a fresh)" = 640 ] || wrong "permissions are $(stat -c %a fresh), not 640"

if [ "$(id -u)" -ne 0 ]; then # nothing is protected from root
    chmod 444 kept
    try 2 assemble ledger -o kept
    told_first "kept: can't be written: Permission denied"
    chmod 644 kept
    cp ledger unreadable
    chmod 0 unreadable
    try 2 assemble unreadable
    told_first "unreadable: can't be read: Permission denied"
fi

echo old >real
ln -s real link
try 0 assemble ledger -o link
same real ledger.book
[ -L link ] || wrong 'the link is gone'
mkdir folder
try 0 assemble ledger -o folder/../folder/in.book
same folder/in.book ledger.book

# The deck itself is never written over, whatever it is called.
cp ledger deck
ln -s deck deck-link
ln deck deck-too
for own in deck ./deck deck-link deck-too "$made/deck"; do
    try 2 assemble deck -o "$own"
    told_first "$own: is read and would be written over"
done
# shellcheck disable=SC2094 # it is refused
try 2 assemble - -o deck <deck
same deck ledger
try 2 load ledger.book --at 0 -o ledger.book
told 'is read and would be written over'
same ledger.book kept

try 2 assemble ledger -o nosuch/x
told_first "nosuch/x: can't be written: no file can be made beside it: No such file or directory"
try 2 assemble ledger -o folder
told_first "folder: can't be written: it is a folder"
try 2 assemble ledger -o ledger/x
told "can't be written"

# Outputs that can't be replaced are written straight. A command that is wrong here would put a
# file in the device's place, so no device of the machine's own is ever named behind -o: a pipe
# and devices in this folder are, where such can be made and used.
mkfifo own-pipe
exec 5<>own-pipe
try 0 assemble ledger -o own-pipe
[ -p own-pipe ] || wrong 'the pipe is no pipe any more'
timeout 5 head -c 208 <&5 >piped
exec 5>&-
same piped ledger.book
if mknod own-full c 1 7 2>mknod.err && mknod own-null c 1 3 2>mknod.err && (: >own-null) 2>mknod.err; then
    try 2 assemble ledger -o own-full
    told_first "own-full: can't be written: No space left on device"
    [ -c own-full ] || wrong 'the full device is no device any more'
    try 0 assemble ledger -o own-null
    [ -c own-null ] || wrong 'the device is no device any more'
else
    echo "command, $which: no device can be made here, so that writing to one is not tried"
fi

# This one is standard output by another name, a pipe.
ran=$((ran + 1)) name='-o /dev/stdout in a pipe'
"$command" assemble /dev/stdin -o /dev/stdout <ledger 2>err | cat >out
same out ledger.book

# A full disk under a file: the old file stays. (A limit on files stands in for the disk.)
ran=$((ran + 1)) name='a limit on files'
echo old >kept
(ulimit -f 0 && exec "$command" load ledger.book --at 0 -o kept 2>&1) | cat >err
status=${PIPESTATUS[0]}
: >out
ended 2 "$status"
told_first "kept: can't be written: File too large"
[ "$(cat kept)" = old ] || wrong 'the output is half written'

# Standard output that takes nothing.
# full STATUS WORD...: standard output is a full disk
full() {
    local status=0
    ran=$((ran + 1)) name="mersclund $* >/dev/full"
    : >out
    "$command" "$@" >/dev/full 2>err || status=$?
    ended 2 "$status"
    told "standard output"
    told 'No space left on device'
}
full --help
full numbers
full assemble --help
full assemble ledger
full assemble ledger -o -
full load ledger.book --at 0
full load ledger.book --at 0 -o -
full print ledger.book

# closed WORD...: standard output is a pipe that nobody reads
closed() {
    local status
    ran=$((ran + 1)) name="mersclund $* | true"
    : >out
    mkfifo pipe
    true <pipe &
    exec 4>pipe
    wait $!
    status=0
    "$command" "$@" >&4 2>err || status=$?
    exec 4>&-
    rm pipe
    ended 2 "$status"
    told 'Broken pipe'
}
closed numbers
closed print ledger.book
closed assemble ledger -o -
closed load ledger.book --at 0 -o -

# Standard streams that are closed: using one fails, and no file takes its place.
# (An emulator opens files of its own there.)
if [ "$(head -c 4 "$command" | tail -c 3)" = ELF ]; then
    ran=$((ran + 4)) name='a closed standard input'
    "$command" assemble - -o kept <&- >out 2>err
    ended 2 $?
    told "standard input: can't be read"
    name='a closed standard output'
    "$command" assemble ledger -o closed.book >&- 2>err
    ended 2 $?
    told 'standard output'
    same closed.book ledger.book
    name='a closed standard output beside a pipe'
    exec 5<>own-pipe
    "$command" assemble ledger -o own-pipe >&- 2>err
    ended 2 $?
    timeout 1 cat <&5 >piped
    exec 5>&-
    same piped ledger.book
    name='a closed standard error'
    "$command" assemble "$root/examples/mistyped" 2>&- >out
    ended 1 $?
    quiet
fi
