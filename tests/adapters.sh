#!/usr/bin/env bash
# The real words, files and streams of the built program, of which no contract says what they hold: adapters.sh PROGRAM
set -u
program=$(realpath "$1") || exit 2
cd "$(dirname "$0")/.." || exit 2
root=$PWD
folder=$(mktemp -d) || exit 2
trap 'rm -rf "$folder"' EXIT
python3 examples/make_objects.py "$folder" || exit 2
cd "$folder" || exit 2
"$program" link -o libgreet.so --shared libgreet.so greet.o || exit 1
"$program" link -o libplugin.so --shared libplugin.so plugin.o libgreet.so || exit 1
"$program" link -o app main.o counter.o libgreet.so || exit 1
printf 'PURECAPI\1\0\0\0\0\0\0\0' > empty
mkdir folder
many() { printf "$1%.0s" $(seq "$2"); }

failed=0
told=0

# expect NAME STATUS LINE COMMAND..: the command must end with this status, and with this line alone on its error output
expect() {
    local name=$1 status=$2 line=$3 ended
    shift 3
    "$@" 2> errors
    ended=$?
    told=$((told + 1))
    if [ "$ended" != "$status" ] || [ "$(cat errors)" != "$line" ]; then
        echo "$name: status $ended, $(cat errors)"
        failed=1
    fi
}

# Streams that can't be written.
to_full() { "$program" "$@" > /dev/full; }
to_closed() { "$program" "$@" >&-; }
errors_to_full() { "$program" "$@" 2> /dev/full; }
errors_to_closed() { "$program" "$@" 2>&-; }

# Words of any length and number, in any bytes.
expect "no words" 2 "purecap: usage" "$program"
expect "a word that isn't UTF-8" 2 "purecap: usage" "$program" show $'i\xff'
expect "a word of 255 bytes" 3 "purecap: $(many a 255): no such file" "$program" show "$(many a 255)"
expect "a word of 300 bytes" 9 "purecap: limit path or name" "$program" show "$(many a 300)"
expect "a word of 100,000 bytes" 9 "purecap: limit path or name" "$program" show "$(many a 100000)"
# shellcheck disable=SC2046
expect "65 calls" 9 "purecap: limit calls or inputs" "$program" load -o i app $(many 'open:a ' 65)
expect "a slot that isn't UTF-8" 2 "purecap: usage" "$program" reach empty $'0x\xff'
expect "a slot of 100,000 digits" 2 "purecap: usage" "$program" reach empty "0x$(many 0 100000)"

# Files that can't be read.
expect "a missing file" 3 "purecap: gone: no such file" "$program" show gone
expect "a file in a missing folder" 3 "purecap: gone/i: no such file" "$program" show gone/i
expect "a folder" 10 "purecap: folder: read fault" "$program" show folder
expect "a file as a folder" 10 "purecap: empty/i: read fault" "$program" show empty/i
expect "a folder to reach in" 10 "purecap: folder: read fault" "$program" reach folder 0x0
expect "a missing image to audit" 3 "purecap: gone: no such file" "$program" audit gone app
expect "a folder to start" 10 "purecap: folder: read fault" "$program" init folder

# Files that can't be written.
expect "an output in a missing folder" 11 "purecap: gone/i: write fault" "$program" load -o gone/i app
expect "an output that is a folder" 11 "purecap: folder: write fault" "$program" load -o folder app
expect "an output that is full" 11 "purecap: /dev/full: write fault" "$program" load -o /dev/full app

# Streams that can't be written.
expect "a full standard output" 11 "purecap: -: write fault" to_full show empty
expect "a closed standard output" 11 "purecap: -: write fault" to_closed show empty
expect "a full error output" 3 "" errors_to_full show gone
expect "a closed error output" 3 "" errors_to_closed show gone
expect "initial calls to a full standard output" 11 "purecap: -: write fault" to_full init app
expect "initial calls to a closed standard output" 11 "purecap: -: write fault" to_closed init app
expect "findings to a full standard output" 11 "purecap: -: write fault" to_full audit empty app
expect "findings to a closed standard output" 11 "purecap: -: write fault" to_closed audit empty app
expect "a slot without a word and a full error output" 14 "" errors_to_full reach empty 0x0
expect "a slot without a word and a closed error output" 14 "" errors_to_closed reach empty 0x0

# What is read and written.
expect "a program that is loaded" 0 "" "$program" load -o app.img app open:libplugin.so
"$program" show app.img > shown 2> errors
if ! cmp shown "$root/examples/app.txt"; then
    echo "the image that was written is shown otherwise"
    failed=1
fi
cp app.img again.img
expect "an image in the place of another file" 0 "" "$program" load -o again.img app
"$program" load -o alone.img app
cmp again.img alone.img || failed=1
expect "a refusal that can't be told" 0 "" errors_to_closed load -o quiet.img app try:gone.so
cmp quiet.img alone.img || failed=1

# What an output leaves: the file that was there, or all of the new one, and nothing beside it.

# holds NAME FILE WANTED: FILE must have what WANTED has, and no file of an unfinished run may stand beside it
holds() {
    if ! cmp "$2" "$3" || compgen -G "$(dirname "$2")/.purecap.*"; then
        echo "$1: not the file that is wanted, or more than it"
        failed=1
    fi
}
is() {
    local name=$1
    shift
    "$@" || { echo "$name: not so: $*"; failed=1; }
}

mkdir out
cp app.img out/i
chmod 640 out/i
expect "an image in the place of another" 0 "" "$program" load -o out/i app
holds "an image in the place of another" out/i alone.img
is "an image in the place of another" test "$(stat -c %a out/i)" = 640
cp main.o own.o
expect "an output that is an input" 0 "" "$program" link -o own.o own.o counter.o libgreet.so
holds "an output that is an input" own.o app
mkdir taken
touch taken/.purecap.0 taken/.purecap.1
expect "names beside the output that are taken" 0 "" "$program" load -o taken/i app
is "names beside the output that are taken" test "$(cd taken && echo .p* && cat .p* && cmp i ../alone.img)" = ".purecap.0 .purecap.1"

mkdir led
ln -s led/i link
ln -s ../link led/link
ln -s "$folder/led/i" led/whole
ln -s led/gone/i link_to_gone
ln -s circle circle
expect "a link to a file that isn't there" 0 "" "$program" load -o link app
holds "a link to a file that isn't there" led/i alone.img
for link in link led/link led/whole; do
    cp app.img led/i
    expect "an output by $link" 0 "" "$program" load -o "$link" app
    holds "an output by $link" led/i alone.img
done
is "links that stay" test -L link -a -L led/link -a -L led/whole
expect "a link into a missing folder" 11 "purecap: link_to_gone: write fault" "$program" load -o link_to_gone app
expect "a link in a circle" 11 "purecap: circle: write fault" "$program" load -o circle app

mkfifo pipe
timeout 60 cat pipe > piped &
expect "an output that is a pipe" 0 "" "$program" load -o pipe app
wait
holds "an output that is a pipe" piped alone.img
is "a pipe that stays" test -p pipe
to_old() { "$program" load -o /dev/stdout app > out/old; }
touch out/old
ln out/old out/same
expect "an output that is standard output" 0 "" to_old
holds "an output that is standard output" out/same alone.img

# Sizes that a process may not pass, as a fault and as a signal that ends it in mid-write.
cp app.img out/i
past_limit() { (trap "" XFSZ; ulimit -f 8; exec "$program" load -o out/i app); }
expect "an output past the limit of the process" 11 "purecap: out/i: write fault" past_limit
holds "an output past the limit of the process" out/i app.img
{ (ulimit -c 0 -f 8; exec "$program" load -o out/i app); ended=$?; } 2> /dev/null
is "a signal in mid-write" test "$ended $(stat -c %s out/.purecap.0)" = "153 8192"
is "a signal in mid-write" cmp out/i app.img
expect "an output beside what a run left" 0 "" "$program" load -o out/i app
rm out/.purecap.0
holds "an output beside what a run left" out/i alone.img

# Runs that are killed at once, until one was in mid-write.
big='from objects import *; open("big", "wb").write(shared(segments=[Segment(0, 4096, READ), Segment(8192, 1 << 24, READ_WRITE, 0)]))'
PYTHONPATH=$root/tests python3 -c "$big"
"$program" load -o big.img big
mkdir killed
in_mid_write=
for _ in {1..10}; do
    cp app.img killed/i
    "$program" load -o killed/i big &
    until [ -e killed/.purecap.0 ] || ! kill -0 $!; do :; done
    kill -KILL $!
    wait $!
    if [ -e killed/.purecap.0 ]; then
        is "a run that is killed" cmp killed/i app.img
        in_mid_write=1
        break
    fi
    is "a run that ends before it is killed" cmp killed/i big.img
done 2> /dev/null
[ "$in_mid_write" ] || echo "no run could be killed in mid-write: skipped"

# A reader of the path, while two images take turns.
cp app.img read.img
while [ ! -e stop ]; do cksum < read.img; done > sums &
for _ in {1..10}; do
    "$program" load -o read.img app
    "$program" load -o read.img app open:libplugin.so
done
touch stop
wait
is "a reader sees one of the two images" test -s sums
is "a reader sees one of the two images" test -z "$(grep -vx -e "$(cksum < app.img)" -e "$(cksum < alone.img)" sums)"

# A full disk.
mkdir small
if [ "$(id -u)" = 0 ] && mount -t tmpfs -o size=64k none small 2> /dev/null; then
    trap 'umount "$folder/small"; rm -rf "$folder"' EXIT
    cp alone.img small/i
    expect "a full disk" 11 "purecap: small/i: write fault" "$program" load -o small/i app open:libplugin.so
    holds "a full disk" small/i alone.img
    expect "a full disk" 11 "purecap: small/j: write fault" "$program" load -o small/j app open:libplugin.so
    holds "a full disk" small/i alone.img
    is "a full disk" test ! -e small/j
else
    echo "no rights to mount a small disk: skipped"
fi

# A folder without rights, for a user that isn't root.
as_other=()
[ "$(id -u)" = 0 ] && as_other=(setpriv --reuid 65534 --regid 65534 --clear-groups)
mkdir shut free
cp app.img shut/i
cp app.img free/i
cp "$program" other
chmod 755 . other
chmod 666 shut/i
chmod 444 free/i
chmod 555 shut
chmod 777 free
if "${as_other[@]}" ./other show empty > /dev/null 2>&1; then
    expect "an output in a folder without rights" 11 "purecap: shut/i: write fault" "${as_other[@]}" ./other load -o shut/i app
    holds "an output in a folder without rights" shut/i app.img
    expect "a new output in a folder without rights" 11 "purecap: shut/j: write fault" "${as_other[@]}" ./other load -o shut/j app
    expect "an output without rights" 11 "purecap: free/i: write fault" "${as_other[@]}" ./other load -o free/i app
    holds "an output without rights" free/i app.img
else
    echo "no other user can be taken: a folder without rights is skipped"
fi
chmod 755 shut

# prints LINE..: the file of the last run's standard output must hold these lines alone
prints() {
    if ! printf '%s\n' "$@" | cmp -s - printed; then
        echo "printed: $(cat printed)"
        failed=1
    fi
}
to_file() { "$program" "$@" > printed; }
to_file_and_full() { "$program" "$@" > printed 2> /dev/full; }
to_file_and_closed() { "$program" "$@" > printed 2>&-; }

# What is reached, started and found.
slot=0x00000000400020c0
expect "reached words to a full standard output" 11 "purecap: -: write fault" to_full reach app.img "$slot"
expect "reached words to a closed standard output" 11 "purecap: -: write fault" to_closed reach app.img "$slot"
expect "a slot without a word" 14 "purecap: app.img: no tagged word at 0x1" "$program" reach app.img 0x1
expect "words that are reached" 0 "" to_file reach app.img "$slot"
{ grep -E '^cap 0x00000000(400020c0|40003000|40003010) ' shown; echo "reached 3 of 7"; } | cmp - printed || failed=1
expect "a program that is started" 0 "" to_file init app open:libplugin.so
prints "calls 0"
expect "an image that is the program's" 0 "" to_file audit app.img app open:libplugin.so
prints "findings 0"
differs=("finding object object 2 at 0x0000000000000000" "findings 1")
expect "an image of other calls" 15 "purecap: alone.img: differs" to_file audit alone.img app open:libplugin.so
prints "${differs[@]}"
expect "a difference that can't be told" 15 "" to_file_and_closed audit alone.img app open:libplugin.so
prints "${differs[@]}"
expect "a difference to a full error output" 15 "" to_file_and_full audit alone.img app open:libplugin.so
prints "${differs[@]}"

[ "$failed" = 0 ] && echo "the words, files and streams of the program: $told runs end as they should"
exit $failed
