# What c/run, bench/run and peers/upstream/run share: the static library, and a program that cargo builds over it and over
# the Rust crate octets 0.3.7. They source it.
#
#   OCTETS_LIB     the folder of a liboctets_c.a that is built already
#   OCTETS_SOURCE  a checkout of the Rust crate, with src/lib.rs and src/huffman_table.rs, or a folder that has these files
#                  as src--src--lib.rs.txt and src--src--huffman_table.rs.txt; without it the crate comes from the
#                  registry, as cargo finds it
#
# The first run of each proves the library, which takes some minutes.

top=$(cd "$(dirname "${BASH_SOURCE[0]}")/.." && pwd)

# Compiles status.c with the kit's clang and these flags. An export of Rattle can't return the pointers that its
# functions return.
compile_status() {
    local object=$1 clang
    shift
    clang=$(dirname "$(rt doc)")/toolchain/bin/clang
    "$clang" --target=x86_64-unknown-linux-gnu -O2 -fPIC -ffunction-sections -fdata-sections "$@" \
        -c "$top/crates/octets_c/status.c" -o "$object"
}

# Adds the functions of status.c to an archive that the kit built, with these flags.
add_status() {
    local archive=$1 objects
    shift
    objects=$(mktemp -d)
    compile_status "$objects/status.o" -fno-asynchronous-unwind-tables "$@" &&
        "$(dirname "$(rt doc)")/toolchain/bin/llvm-ar" rsD "$archive" "$objects/status.o"
    rm -r "$objects"
}

# Proves and builds the library, and stores its folder in OCTETS_LIB, unless that names one. If this fails, it
# prints what rt printed.
make_library() {
    local said
    if [ -z "${OCTETS_LIB:-}" ]; then
        if ! said=$(cd "$top/crates/octets_c" && rt lib 2>&1); then
            printf '%s\n' "$said" >&2
            return 1
        fi
        OCTETS_LIB=$top/crates/octets_c/out
        add_status "$OCTETS_LIB/liboctets_c.a"
    fi
    export OCTETS_LIB
}

# Makes a registry of cargo in a folder, which has only the Rust crate. With the arguments below it, cargo uses this
# registry in the place of crates.io, and a lock file names the crate as one from crates.io.
make_registry() {
    local crate=$1/octets file
    mkdir -p "$crate/src"
    for file in lib huffman_table; do
        cp "$OCTETS_SOURCE/src/$file.rs" "$crate/src" 2> /dev/null ||
            cp "$OCTETS_SOURCE/src--src--$file.rs.txt" "$crate/src/$file.rs"
    done
    echo '{"files":{}}' > "$crate/.cargo-checksum.json"
    cat > "$crate/Cargo.toml" << 'END'
[package]
name = "octets"
version = "0.3.7"
edition = "2021"

[features]
huffman_hpack = []

[lints.rust]
unexpected_cfgs = "allow"
END
    registry=(--offline --config 'source.crates-io.replace-with="original"' --config "source.original.directory='$1'")
}

# Has cargo build as a program does whose profile has lto = "fat", "thin" or "off", or opt-level = "z", or no profile at all,
# which is the default; or as `cargo build` does without --release, which is debug. Without LTO cargo still optimizes the parts
# of a crate together; with "off" it doesn't.
choose_build() {
    export CARGO_PROFILE_RELEASE_LTO=false CARGO_PROFILE_RELEASE_CODEGEN_UNITS=16
    case $1 in
    fat) export CARGO_PROFILE_RELEASE_LTO=fat CARGO_PROFILE_RELEASE_CODEGEN_UNITS=1 ;;
    thin | off) export CARGO_PROFILE_RELEASE_LTO=$1 ;;
    z) export CARGO_PROFILE_RELEASE_OPT_LEVEL=z ;;
    debug) export PROFILE=dev ;;
    default) ;;
    *) return 1 ;;
    esac
}

# Builds the program of a folder sixteen times, each time with its loops moved by five more bytes, since the time of a
# loop depends on the address of its code. It prints a table in Markdown, and writes the ratios of groups of calls to
# bench/results.tsv, after this name and the build, unless CPU names another processor.
run_at_places() {
    local name="$2 $3" places=$top/$1/out/places means=$top/bench/means.py
    choose_build "$3" || {
        sed -n 's/^# usage: /usage: /p' "$0" >&2
        exit 2
    }
    rm -rf "$places"
    mkdir -p "$places"
    for place in $(seq 0 5 75); do
        BENCH_PLACE=$place run_beside "$1" > "$places/$place"
    done
    "$means" "$places"/*
    if [ -z "${CPU:-}" ]; then
        "$means" --groups "$name" "$places"/* | keep_results "$name"
    fi
}

# Builds the program of a folder, over the library and the Rust crate, and runs it with the words that follow. FLAGS are
# further flags of the compiler, CPU another processor, PROFILE another profile of cargo's than release, FEATURES
# features of the program, REGISTRY a folder with the crates that it needs, in the place of the Rust crate, and UNDER a command
# under which the program runs.
run_beside() {
    local folder=$top/$1 registry=() profile=${PROFILE:-release}
    shift
    export CARGO_TARGET_DIR=$folder/out/target
    if [ -n "${REGISTRY:-}" ]; then
        registry=(--offline --config 'source.crates-io.replace-with="other"' --config "source.other.directory='$REGISTRY'")
    elif [ -n "${OCTETS_SOURCE:-}" ]; then
        make_registry "$folder/out/registry"
    fi
    # As the library is built.
    RUSTFLAGS="-C target-cpu=${CPU:-x86-64-v2} ${FLAGS:-}" \
        cargo build --quiet --profile "$profile" --manifest-path "$folder/Cargo.toml" \
        --features "${FEATURES:-}" "${registry[@]}"
    # The command of UNDER, if any, is words.
    # shellcheck disable=SC2086
    ${UNDER:-} "$CARGO_TARGET_DIR/${profile/#dev/debug}/${folder##*/}" "$@"
}

# Replaces the lines of bench/results.tsv that begin with this name by those of the standard input.
keep_results() {
    local results=$top/bench/results.tsv out=$top/bench/out
    mkdir -p "$out"
    { grep -v "^$1"$'\t' "$results" || true; cat; } | LC_ALL=C sort -s -t $'\t' -k 1,1 > "$out/results.tsv"
    cp "$out/results.tsv" "$results"
}
