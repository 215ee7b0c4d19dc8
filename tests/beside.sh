# For scripts that put a program beside copies of crates, so that the gate has nothing to do with it. To be sourced.
#
# beside PROGRAM "USED" CRATE..: a folder with copies of these crates of the repository, in which the crate PROGRAM
# stands on those that it uses. Sets `folder`; it goes when the script ends.
beside() {
    local program=$1 used=$2 crate
    shift 2
    folder=$(mktemp -d) || exit 2
    trap 'rm -rf "$folder"' EXIT
    mkdir -p "$folder/crates/$program/src"
    cp HANDLES "$folder"
    for crate in "$@"; do
        grep "^$crate:" crates.txt >> "$folder/crates.txt"
        mkdir "$folder/crates/$crate"
        cp -r "crates/$crate"/{src,specs,proofs} "$folder/crates/$crate"
    done
    printf '%s: %s\n' "$program" "$used" >> "$folder/crates.txt"
}
