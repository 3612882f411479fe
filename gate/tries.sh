# Functions of the gate's bash scripts, which source this file. They run commands, and count how many of them succeed
# with the expected last line. Those at the end read tables of cases. Needs only bash.

export LC_ALL=C CARGO_NET_OFFLINE=true
part=${0##*/}
said=$(mktemp)
scratch=$(mktemp -d)
trap 'rm -rf "$said" "$scratch"' EXIT
passed=0 failed=0
# Of all packages of the repository.
version=$(sed -n '0,/^version = /s/^version = "\(.*\)"/\1/p' rust/Cargo.toml)
# The last line that each example prints, as a pattern.
declare -A prints=(
    [packet]='kind 7 number 258 payload 616263'
    [calls]='[1-9]* passed, 0 failed'
    [threads]='[1-9]* passed, 0 failed'
)

# Runs a command. It passes if it succeeds and its last line matches this pattern. In a condition, a function would go on
# after a command that fails; `local` hides a status that would end the script.
try() {
    local name=$1 wanted=$2
    shift 2
    local ended=$(set -e; "$@" > "$said" 2>&1; echo 0)
    if [[ $ended == 0 && $(tail -n 1 "$said") == $wanted ]]; then
        echo "$part: $name: $(tail -n 1 "$said")"
        passed=$((passed + 1))
    else
        echo "$part: $name failed:"
        tail -n 40 "$said"
        failed=$((failed + 1))
    fi
}

# Whether a tool is installed. If it isn't, this prints so.
finds() {
    command -v "$1" > /dev/null || {
        echo "$part: $1 isn't installed, so nothing was tried with it"
        return 1
    }
}

# Whether a compiler links a program with these arguments. If it doesn't, this prints so.
links() {
    finds "$1" || return 1
    echo 'int main(void) { return 0; }' | "$@" -x c - -o "$scratch/linked.exe" > "$said" 2>&1 || {
        echo "$part: $1 links no program, so nothing was tried with it"
        return 1
    }
}

# Whether the program that `links` made last runs, and ends within two minutes. The arguments are the command of an
# emulator; without them the program runs on this machine. If it doesn't run, this prints so, with its last line.
runs_linked() {
    [ $# = 0 ] || finds "$1" || return 1
    (cd "$scratch" && timeout 120 "$@" ./linked.exe) > "$said" 2>&1 || {
        echo "$part: ${1:-this machine} runs no program, so nothing was tried with it: $(tail -n 1 "$said")"
        return 1
    }
}

# Whether cargo finds the crate octets 0.3.7 without a network, for the program in a folder. If not, this prints so.
finds_crate() {
    [ -e "${OCTETS_SOURCE:-/nowhere}/src/lib.rs" ] || [ -e "${OCTETS_SOURCE:-/nowhere}/src--src--lib.rs.txt" ] ||
        cargo metadata --offline --format-version 1 --manifest-path "$1/Cargo.toml" > "$said" 2>&1 || {
        echo "$part: the crate octets 0.3.7 isn't found, so nothing was compared with it"
        return 1
    }
}

# Whether a rustc has these libraries for a target, or the sources to build them. If so, `for_target` is what cargo takes to
# build for the target. If not, this prints so.
finds_target() {
    local libraries=$1 target=$2 rustc sources
    for rustc in rustc /usr/bin/rustc; do
        command -v "$rustc" > /dev/null || continue
        sources=$("$rustc" --print sysroot)/lib/rustlib
        for_target=(--config "build.rustc='$(command -v "$rustc")'" --target "$target")
        if [ -d "$sources/$target" ]; then
            return
        fi
        sources=$sources/src/rust/library
        if [ -d "$sources/vendor" ]; then
            for_target+=(-Z "build-std=$libraries" --config 'source.crates-io.replace-with="vendored"'
                --config "source.vendored.directory='$sources/vendor'")
            return
        fi
    done
    echo "$part: no rustc has $libraries for $target, nor their sources, so nothing was tried there"
    return 1
}

# Runs a command with a path on which the kit isn't found.
without_kit() (
    PATH=$(printf '%s' "$PATH" | tr ':' '\n' | while read -r place; do
        [ -e "$place/rt" ] || printf '%s:' "$place"
    done)
    ! command -v rt > /dev/null && "$@"
)

# Builds tests by cargo with these arguments, and runs them for at most 15 minutes. The last line is the last result.
cargo_tests() {
    local status=0
    cargo test --offline --no-run "$@" > "$scratch/tests" 2>&1 &&
        timeout 900 cargo test --offline "$@" > "$scratch/tests" 2>&1 || status=$?
    grep '^test result' "$scratch/tests" | tail -n 1
    ! grep -E '^test result: FAILED|^error' "$scratch/tests" || return
    [ "$status" = 0 ] || {
        tail -n 20 "$scratch/tests"
        echo "cargo test ended with the status $status, which is 124 if the tests still ran after 15 minutes"
        return 1
    }
}

# Whether so many GB of memory are free. If they aren't, this prints so.
has_memory() {
    local free
    free=$(awk '/^MemAvailable:/ { print int($2 / 1000000) }' /proc/meminfo 2> /dev/null || echo 0)
    [ "${free:-0}" -ge "$1" ] || {
        echo "$part: fewer than $1 GB of memory are free: great lengths weren't tried"
        return 1
    }
}

# Prints what another script of the gate printed into a file, and counts what it counted.
add_part() {
    sed '$d' "$1"
    if [[ $(tail -n 1 "$1") =~ ^([0-9]+)\ passed,\ ([0-9]+)\ failed$ ]]; then
        passed=$((passed + BASH_REMATCH[1])) failed=$((failed + BASH_REMATCH[2]))
    else
        echo "$part: ${1##*/} didn't end with its counts: $(tail -n 1 "$1")"
        failed=$((failed + 1))
    fi
}

sum_up() {
    echo "$passed passed, $failed failed"
    [ "$failed" = 0 ]
}

# A line of a table is a case, unless it is empty or begins with #. The fields of a case are separated by |, and the blanks
# around them don't count.

# Prints the cases of a table.
cases() { grep -v -e '^#' -e '^$' "gate/$1"; }

# Stores the fields of a case in `fields`.
read_fields() {
    local at text
    IFS='|' read -r -a fields <<< "$1"
    for at in 0 1 2 3 4 5; do
        text=${fields[at]:-}
        text=${text#"${text%%[! ]*}"}
        fields[at]=${text%"${text##*[! ]}"}
    done
}

# Stores a text, repeated so many times, in `repeated`.
repeat() {
    local text=$1 count=$2
    repeated=
    for (( ; count > 0; count /= 2)); do
        if ((count % 2)); then repeated+=$text; fi
        text+=$text
    done
}

# Prints the bytes of a field. An escape of printf is a byte (\040 is a space, \n a line feed). {TEXT*N} is N times
# TEXT, which may contain another such repetition.
bytes() {
    local text=${1//%/%%} whole= begin end count
    while [[ $text =~ ^([^{]*)\{([^*{}]*)(\{([^*{}]*)\*([0-9]+)\}([^*{}]*))?\*([0-9]+)\}(.*)$ ]]; do
        whole+=${BASH_REMATCH[1]} text=${BASH_REMATCH[8]}
        begin=${BASH_REMATCH[2]} end=${BASH_REMATCH[6]} count=${BASH_REMATCH[7]}
        repeat "${BASH_REMATCH[4]}" "${BASH_REMATCH[5]:-0}"
        repeat "$begin$repeated$end" "$count"
        whole+=$repeated
    done
    printf -- "$whole$text"
}

# Whether the program of a crate is older than the sources that it is built from, which are those of the crates that
# crates.txt names after it. If so, it prints what to do.
is_outdated() {
    local crate=$1 built=$2 below newer
    below=$(sed -n "s/^$crate[^:]*: *//p" crates.txt)
    newer=$(find $(printf 'crates/%s/src ' "$crate" $below) -type f -newer "$built" -print -quit)
    if [ -z "$newer" ]; then return 1; fi
    echo "${built##*/} is older than $newer: build it with rt run in crates/$crate, or with rt ci"
}
