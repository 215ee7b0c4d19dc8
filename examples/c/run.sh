#!/usr/bin/env bash
# From C to an image: compiles a program of three files and two libraries with clang, converts the objects, links and
# loads them, and looks at the image. What it prints is compared with expected.txt.
#
#     examples/c/run.sh PROGRAM [FOLDER]      FOLDER keeps what is made; picture.html in it is to be looked at
#
# expected.txt is what this prints with clang 14. Another clang makes other code, so nothing is compared then.
set -u
program=$(realpath "$1") || exit 2
here=$(realpath "$(dirname "$0")")
tools=$here/../../tools
if ! clang --print-targets 2> /dev/null | grep -q riscv64; then
    echo "skipped: no clang for riscv64"
    exit 0
fi
"$program" reach /nowhere 0x0 2> /dev/null
if [ $? != 3 ]; then
    echo "skipped: this program has no reach"
    exit 0
fi
if [ $# -gt 1 ]; then
    folder=$2
    mkdir -p "$folder" || exit 2
else
    folder=$(mktemp -d) || exit 2
    trap 'rm -rf "$folder"' EXIT
fi
cd "$folder" || exit 2

# What a command prints, and then what it tells on its error output.
run() {
    local ended
    echo "\$ purecap $*"
    "$program" "$@" 2> told
    ended=$?
    cat told
    return $ended
}

make_all() {
    for name in main state operations greet plugin; do
        clang --target=riscv64-linux-gnu -march=rv64gc -fPIC -mno-relax -fcommon -ffreestanding -O1 -c \
            -o "$name.riscv.o" "$here/$name.c" || return 1
        echo "\$ convert.py -o $name.o $name.riscv.o"
        "$tools/convert.py" -o "$name.o" "$name.riscv.o" 2>&1 || return 1
    done
    run link -o libgreet.so --shared libgreet.so greet.o || return 1
    run link -o libplugin.so --shared libplugin.so plugin.o libgreet.so || return 1
    run link -o app main.o state.o operations.o libgreet.so || return 1
    run load -o app.img app open:libplugin.so try:libabsent.so || return 1
    run show app.img | tee shown
    slot=$(awk '$1 == "cap" && $NF == "greetings" { print $2; exit }' shown)
    run reach app.img "$slot" | tee reached
    run init app open:libplugin.so try:libabsent.so || return 1
    run audit app.img app open:libplugin.so try:libabsent.so || return 1
    echo "\$ picture.py -o picture.html --word $slot --reached reached shown"
    "$tools/picture.py" -o picture.html --word "$slot" --reached reached shown || return 1
}

make_all > printed || { cat printed; exit 1; }
cat printed
version=$(clang -dumpversion)
if [ "${version%%.*}" != 14 ]; then
    echo "skipped: expected.txt is of clang 14, and this is clang $version"
elif diff "$here/expected.txt" printed > differences; then
    echo "as it should be"
else
    echo "this differs from examples/c/expected.txt:"
    cat differences
    exit 1
fi
