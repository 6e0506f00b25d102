# For the scripts beside it: a clone of the repository in a scratch folder, and programs of bench/programs that are added to it.
# Their files end in `.in`, since the gate wants each source of Rattle to be of a crate that it proves.
top=$(cd "$(dirname "$0")/.." && pwd)
scratch=$(mktemp -d)
trap 'rm -rf "$scratch"' EXIT

# clone CRATE ..: with what is built of these crates.
clone() {
    git clone -q "$top" "$scratch/repo"
    for crate in "$@"; do
        if [ -d "$top/crates/$crate/out" ]; then
            cp -r "$top/crates/$crate/out" "$scratch/repo/crates/$crate/out"
        fi
    done
}

# build NAME DEPS: adds the program, which stands on these libraries, proves it, and builds it as $scratch/NAME.
build() {
    cp -r "$top/bench/programs/$1" "$scratch/repo/crates/$1"
    find "$scratch/repo/crates/$1" -name '*.in' | while read -r file; do
        mv "$file" "${file%.in}"
    done
    echo "$1: $2" >>"$scratch/repo/crates.txt"
    (cd "$scratch/repo/crates/$1" && rt run </dev/null >"$scratch/figures" 2>"$scratch/log") || {
        grep -E 'error|proof|⊢' "$scratch/log" | head -40
        tail -20 "$scratch/log"
        exit 1
    }
    cp "$scratch/repo/crates/$1/out/$1" "$scratch/$1"
}
