# h2, from the Rust sources that librust-h2-dev installs. Debian commented the stories of its tests out, because it has no
# files for them; those of haskell-http2 are the same.

title='h2 0.3.13'
comparisons=2
packages=(librust-h2-dev librust-env-logger-dev librust-hex-dev librust-quickcheck-dev librust-rand-dev librust-serde-dev
    librust-serde-json-dev librust-walkdir-dev dpkg-dev)

get() {
    cp -r "$registry/h2-0.3.13" "$1"
    fetch_source haskell-http2
    mkdir "$1/fixtures"
    cp -r "$sources/haskell-http2"/test-hpack/hpack-test-case "$1/fixtures/hpack"
    sed -i 's|^/\*use |use |; s|^);\*/$|);|' "$1/src/hpack/test/fixture.rs"
}

replace() {
    local huffman=$1/src/hpack/huffman
    mkdir "$huffman/theirs"
    mv "$huffman/table.rs" "$huffman/theirs"
    sed '/^#\[cfg(test)\]/,$d' "$huffman/mod.rs" > "$huffman/theirs.rs"
    sed -n '/^#\[cfg(test)\]/,$p' "$huffman/mod.rs" > "$huffman/tests"
    cat "$here/h2/huffman.rs" "$huffman/tests" - > "$huffman/mod.rs" << 'END'
#[cfg(test)]
mod beside;
#[cfg(test)]
mod theirs;
END
    cp "$here/h2/beside.rs" "$huffman"
    depend_on_octets "$1/Cargo.toml"
}

run_tests() {
    cargo_test "$1" --lib
}

faults() {
    fault 'two codes exchanged in the encoder' proved/octets_code/src/tables/codes.rs \
        's|0x3 }, // 97|NEW }, // 97|; s|0x4 }, // 99|0x3 }, // 99|; s|NEW|0x4|'
    fault 'two symbols exchanged in the decoder' proved/octets_code/src/tables/symbols.rs \
        's/\b1935\b/NEW/g; s/\b3087\b/1935/g; s/NEW/3087/g'
}
