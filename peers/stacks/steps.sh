# The steps of peers/stacks/run, which sources this file, and then stack.sh of the stack. That file sets `title`, `packages` and
# `comparisons`, their number, and has these functions:
#
#   get FOLDER        writes the source of the stack to a new folder
#   replace FOLDER    puts our files in the place of its codec, and adds comparisons with its own
#   run_tests FOLDER  builds it, and prints the name of each test that passed; it fails if it couldn't build it
#   faults            calls `fault` for changes of the library that the tests or the comparisons have to notice
#   exchange          (if there is one) runs programs over the stack, and calls `count`
#
# The names of comparisons contain the word `beside`.

registry=/usr/share/cargo/registry
passed=0 failed=0

# Prints the names of the packages that aren't installed.
missing_packages() {
    local package missing=()
    for package in "${packages[@]}"; do
        [ "$(dpkg-query --show --showformat '${db:Status-Status}' "$package" 2> /dev/null)" = installed ] || missing+=("$package")
    done
    echo "${missing[*]}"
}

# Counts checks that passed or failed, and prints what they were.
count() {
    passed=$((passed + $1)) failed=$((failed + $2))
    echo "$title: $3"
}

# Runs apt-get with lists of its own, so that the machine needs no line deb-src.
apt_get() {
    apt-get -q -q -o APT::Sandbox::User= -o Dir::State::lists="$sources/lists" -o Dir::Cache="$sources/cache" \
        -o Dir::Etc::sourcelist="$sources/sources.list" -o Dir::Etc::sourceparts=- "$@"
}

# Stores the source of a package of Debian 12 in the folder of its name in $sources, with Debian's patches, unless it is
# there.
fetch_source() {
    [ ! -d "$sources/$1" ] || return 0
    mkdir -p "$sources/lists/partial" "$sources/cache/archives/partial" "$sources/$1.new"
    if [ ! -f "$sources/sources.list" ]; then
        echo "deb-src [signed-by=/usr/share/keyrings/debian-archive-keyring.gpg] ${DEBIAN:-http://deb.debian.org/debian} bookworm main" \
            > "$sources/sources.list"
    fi
    apt_get update
    (cd "$sources/$1.new" && apt_get source "$1")
    mv "$sources/$1.new"/*/ "$sources/$1"
    rm -r "$sources/$1.new"
}

# Copies what cargo builds the library from, so that faults can be put into the copy.
copy_library() {
    mkdir "$scratch/octets"
    tar -C "$top" --exclude=target --exclude=out -cf - LICENSE c rust crates/octets_c/octets.h | tar -C "$scratch/octets" -xf -
}

# Adds the copy of the crate to the dependencies of a package that is two folders above it.
depend_on_octets() {
    printf '\n[dependencies.octets]\npath = "%s"\nfeatures = ["more"]\n' "$scratch/octets/rust" >> "$1"
}

# Builds the tests of a package, with Debian's crates in the place of crates.io, and prints the names of those that passed.
# Old sources have lints that today's rustc denies.
cargo_test() {
    local folder=$1 it=(--config 'source.crates-io.replace-with="debian"' --config "source.debian.directory=\"$registry\"")
    shift
    export CARGO_TARGET_DIR=$here/out/target/${scratch##*/} RUSTFLAGS=--cap-lints=allow CARGO_INCREMENTAL=0
    export CARGO_PROFILE_DEV_OPT_LEVEL=1 CARGO_PROFILE_DEV_DEBUG=false
    (
        cd "$folder"
        cargo "${it[@]}" test --offline --quiet --no-run "$@" >&2
        timeout 1200 cargo "${it[@]}" test --offline --no-fail-fast "$@" < /dev/null 2>&1 || true
    ) | tee "$folder.log" | sed -n 's/^test \(.*\) \.\.\. ok$/\1/p'
}

# Stores the names of the tests that pass in a folder in a sorted file of this name, without comparisons in $2.beside.
tests_of() {
    run_tests "$scratch/$1" > "$scratch/$2.names"
    grep -v beside "$scratch/$2.names" | LC_ALL=C sort > "$scratch/$2" || true
    grep beside "$scratch/$2.names" | LC_ALL=C sort > "$scratch/$2.beside" || true
}

# How many lines of the first file aren't in the second.
lost() {
    LC_ALL=C comm -23 "$scratch/$1" "$scratch/$2" | wc -l
}

compare_counts() {
    local before after beside
    before=$(wc -l < "$scratch/before") after=$(wc -l < "$scratch/after") beside=$(wc -l < "$scratch/after.beside")
    echo "$title: $before tests pass with its own codec"
    count "$after" "$(lost before after)" "$after tests pass with this library"
    LC_ALL=C comm -23 "$scratch/before" "$scratch/after" | sed 's/^/- /'
    if [ "$before" = 0 ] || [ "$beside" != "$comparisons" ]; then
        count "$beside" 1 "$beside of $comparisons comparisons with its own codec pass"
    else
        count "$beside" 0 "$beside comparisons with its own codec pass"
    fi
}

# Puts a fault into a file of the copy of the library, by a script of sed, and has the tests and comparisons notice it.
fault() {
    local file=$scratch/octets/rust/$2 tests beside
    cp "$file" "$scratch/sound"
    sed -i "$3" "$file"
    ! cmp -s "$file" "$scratch/sound" || { echo "$title: the fault $1 changes nothing" && exit 1; }
    tests_of ours broken
    cp "$scratch/sound" "$file"
    tests=$(lost after broken) beside=$(lost after.beside broken.beside)
    count "$((tests + beside > 0))" "$((tests + beside == 0))" \
        "with $1, $tests tests and $beside comparisons fail"
}

# Builds the C library from the copy by cargo, without the kit, and installs it in $scratch/installed.
install_library() {
    "$scratch/octets/c/install" --prefix "$scratch/installed" > "$scratch/install.log" 2>&1 || {
        cat "$scratch/install.log" >&2
        return 1
    }
}

# Configures a stack with the further arguments, and builds its library and its tests: in `ours` with our library.
build_by_make() {
    local folder=$1 with=()
    shift
    if [ "$folder" = "$scratch/ours" ]; then
        install_library
        export PKG_CONFIG_PATH=$scratch/installed/lib/pkgconfig
        with=(CPPFLAGS="$(pkg-config --cflags octets_c-shared)" LIBS="$(pkg-config --libs octets_c-shared)"
            LDFLAGS="-Wl,-rpath,$scratch/installed/lib")
    fi
    (
        cd "$folder"
        [ -f Makefile ] || ./configure "$@" "${with[@]}"
        make -j2 -C lib
        make -j2 -C tests check TESTS=
    ) > "$folder.log" 2>&1 || {
        tail -n 20 "$folder.log" >&2
        return 1
    }
}

# Runs a test program of CUnit, and prints the names of the tests that passed.
run_cunit() {
    { timeout 600 "$1" || true; } | tee "$1.said" | sed -n 's/^ *Test: \(.*\) \.\.\.passed.*/\1/p'
}

# Removes the definition of a C function from a file.
remove_function() {
    grep -q "^[a-z].*\b$1(" "$2"
    sed -i "/^[a-z].*\b$1(/,/^}/d" "$2"
}

# Builds some sources of the stack's library as a shared library of its own, which exports all their functions.
build_part() {
    local folder=$scratch/$1
    shift
    (cd "$folder/lib" && gcc -O2 -shared -fPIC -DHAVE_CONFIG_H -I .. -I includes -I "$scratch/installed/include" \
        "${@/%/.c}" -o "$folder/part.so" -L "$scratch/installed/lib" -Wl,-rpath,"$scratch/installed/lib" -loctets_c-shared)
}
