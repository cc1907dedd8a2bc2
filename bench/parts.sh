# Functions shared by the scripts in bench/, tests/diff/ and tests/fuzz/. `top` is the directory of the repository.

# Ends the script with a message.
give_up() {
    echo "$1" >&2
    exit 2
}

# Ends the script if a required program is missing.
look_for_tools() {
    command -v rt >/dev/null || give_up "The Rattle toolchain is missing: its command 'rt' has to be on the PATH."
    command -v cargo >/dev/null || give_up "Cargo is missing: comparing with a Rust crate needs it, so 'cargo' has to be on the PATH."
    command -v "${CC:-cc}" >/dev/null || give_up "A C compiler is missing: '${CC:-cc}' has to be on the PATH, or CC has to name one."
    command -v ar >/dev/null || give_up "The archiver 'ar' is missing: it has to be on the PATH."
}

# Proves and builds static libraries and the tool.
build_ours() {
    local crate
    for crate in "$@"; do
        (cd "$top/crates/$crate" && rt lib) >"$work/ours.txt" 2>&1 \
            || { tail -20 "$work/ours.txt" >&2; give_up "The crate $crate could not be built."; }
    done
    (cd "$top/crates/ipexts" && rt run </dev/null) >"$work/ours.txt" 2>&1 \
        || { tail -20 "$work/ours.txt" >&2; give_up "The crate ipexts could not be built."; }
    tool=$top/crates/ipexts/out/ipexts
}

# Finds the original, without network access if possible.
look_for_original() {
    local folder
    for folder in "$@"; do
        cd "$top/$folder"
        # shellcheck disable=SC2086 # CARGO_FLAGS are several words.
        cargo fetch --quiet --offline $flags 2>/dev/null \
            || { [ -z "$offline" ] && cargo fetch --quiet $flags 2>/dev/null; } \
            || give_up "The crate etherparse 0.19.0 is missing: this needs network access, or CARGO_FLAGS with a Cargo flag that locates the crate."
    done
}

# build FOLDER FLAGS..: builds the package in a folder of the repository, with additional flags for Cargo.
build() {
    local folder=$1
    shift
    cd "$top/$folder"
    # shellcheck disable=SC2086
    cargo build --quiet --release --offline $flags "$@" 2>"$work/${folder//\//-}.txt" \
        || { tail -40 "$work/${folder//\//-}.txt" >&2; give_up "The package in $folder/ could not be built."; }
}

# Cargo rejects a repeated flag, and every call above except the second `cargo fetch` has `--offline` itself.
flags='' offline=''
for word in ${CARGO_FLAGS:-}; do
    case $word in
        --offline) offline=yes ;;
        *) flags="$flags $word" ;;
    esac
done
work=$top/bench/target/work
mkdir -p "$work"
