# Sourced by scripts of this folder. A program of the tools isn't proved and stands in no crate: it is interpreted in a copy
# of the crates that it stands on. Its files end in .rattle, since each .rt file of the repository is one that is proved.

# interpreted COPY NAME LIBRARIES: puts the program tools/NAME, with these crates, into the folder COPY.
interpreted() {
    local copy=$1 name=$2 crate file
    shift 2
    mkdir -p "$copy/crates/$name/src"
    for file in "tools/$name"/*.rattle; do
        cp "$file" "$copy/crates/$name/src/$(basename "$file" .rattle).rt"
    done
    cp HANDLES "$copy/"
    for crate in "$@"; do
        mkdir "$copy/crates/$crate"
        cp -r "crates/$crate/src" "$copy/crates/$crate/"
        [ ! -d "crates/$crate/specs" ] || cp -r "crates/$crate/specs" "$copy/crates/$crate/"
        [ ! -d "crates/$crate/proofs" ] || cp -r "crates/$crate/proofs" "$copy/crates/$crate/"
        grep -E "^$crate[ :]" crates.txt
    done >"$copy/crates.txt"
    echo "$name may_wait=5: $*" >>"$copy/crates.txt"
}
