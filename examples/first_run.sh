#!/usr/bin/env bash
# Shows an image. With the proved program, which the gate leaves, it links a program and two libraries from relocatable
# objects, loads them, shows the image, and compares what is seen with what should be seen. Without it, the same source
# is compiled and run unproved, on the image of these objects that the repository holds.
set -u
cd "$(dirname "$0")/.." || exit 2
root=$PWD
folder=$(mktemp -d) || exit 2
trap 'rm -rf "$folder"' EXIT
program=$root/crates/purecap/out/purecap

is_proved() {
    [ -x "$program" ] && [ -z "$(find crates crates.txt -newer "$program" -type f -not -path '*/out/*' -print -quit)" ]
}

run() {
    echo "\$ purecap $*"
    "$program" "$@" || exit 1
}

compare() {
    if cmp -s "$1" examples/app.txt; then
        echo "as it should be"
    else
        echo "this differs from examples/app.txt"
        exit 1
    fi
}

if is_proved; then
    python3 examples/make_objects.py "$folder" || exit 1
    cd "$folder" || exit 2
    run link -o libgreet.so --shared libgreet.so greet.o
    run link -o libplugin.so --shared libplugin.so plugin.o libgreet.so
    run link -o app main.o counter.o libgreet.so
    run load -o app.img app open:libplugin.so
    run show app.img > shown
    cat shown
    run reach app.img 0x00000000400020c0
    run audit app.img app open:libplugin.so
    tail -n +2 shown > report
    cd "$root" || exit 2
    compare "$folder/report"
else
    echo "compiling purecap, in a minute or two; this proves NOTHING: .ci/run proves it all, and leaves the program"
    printf 'demo 1\nshow examples/app.img\n' | tools/unproved.py > "$folder/printed"
    ended=$?
    cat "$folder/printed"
    [ $ended = 0 ] || exit 1
    sed '1,/^\$ purecap show/d' "$folder/printed" > "$folder/report"
    compare "$folder/report"
fi
