# For scripts that read it: copies crates of a tree of this project into a folder, with small programs over them.
#
# Each folder here is one of these programs: main.rt.txt is its code, proofs/ has its proofs, if any, and uses.txt the libraries
# that it uses. The names of its files end in .txt since rt ci takes no .rt or .antt file outside of a listed crate.
programs=$(cd "$(dirname "${BASH_SOURCE[0]}")" && pwd)

# uses_of FILE NAME: the libraries on the line of a crate or of a program.
uses_of() {
    sed -n "s/^$2: *//p" "$1"
}

# below TREE NAME..: these crates and those that they stand on, some of them several times. Libraries of the kit are left
# out.
below() {
    local tree=$1 name
    shift
    for name in "$@"; do
        if grep -q "^$name:" "$tree/crates.txt"; then
            below "$tree" $(uses_of "$tree/crates.txt" "$name")
            echo "$name"
        fi
    done
}

# copy_crates TREE FOLDER NAME..: these crates and those that they stand on, without what was built.
copy_crates() {
    local tree=$1 work=$2 crate
    shift 2
    mkdir -p "$work/crates"
    for crate in $(below "$tree" "$@" | sort -u); do
        tar -C "$tree/crates" --exclude="$crate/out" -c "$crate" | tar -C "$work/crates" -x
        grep "^$crate:" "$tree/crates.txt"
    done > "$work/crates.txt"
    cp "$tree/HANDLES" "$work/"
    git -C "$work" init -q
}

# over_crates TREE FOLDER NAME: the program NAME of this folder over the crates of the tree.
over_crates() {
    local tree=$1 work=$2 name=$3
    copy_crates "$tree" "$work" $(uses_of "$programs/uses.txt" "$name")
    grep "^$name:" "$programs/uses.txt" >> "$work/crates.txt"
    mkdir -p "$work/crates/$name/src"
    cp "$programs/$name/main.rt.txt" "$work/crates/$name/src/main.rt"
    if [ -d "$programs/$name/proofs" ]; then
        cp -r "$programs/$name/proofs" "$work/crates/$name/"
        find "$work/crates/$name/proofs" -name '*.txt' -exec sh -c 'mv "$1" "${1%.txt}"' _ {} \;
    fi
}
