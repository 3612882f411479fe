//! Writes the source of the loops for each crate of the name, and links the libraries, if the program times these.
use std::env::var;

fn main() {
    println!("cargo:rerun-if-changed=src/loops.rs");
    let text = std::fs::read_to_string("src/loops.rs").expect("the loops");
    let loops: String = text.lines().filter(|line| !line.starts_with("//!")).flat_map(|line| [line, "\n"]).collect();
    let out = var("OUT_DIR").expect("cargo sets OUT_DIR");
    // A loop that is counted has to be a function of its own.
    println!("cargo:rerun-if-env-changed=BENCH_COUNTED");
    let loops = if var("BENCH_COUNTED").is_ok() { loops.replace("\npub fn", "\n#[inline(never)]\npub fn") } else { loops };
    for name in ["ours", "theirs"] {
        let over = format!("use ::{name} as octets;\n{loops}");
        std::fs::write(format!("{out}/{name}.rs"), over).expect("the loops are written");
    }
    println!("cargo:rustc-check-cfg=cfg(nghttp2)");
    if var("CARGO_FEATURE_LIBRARY").is_ok() {
        link();
    }
}

fn link() {
    let of = |name| var(name).unwrap_or_else(|_| panic!("{name} isn't set"));
    let (octets, loops, kit) = (of("OCTETS_LIB"), of("LOOPS_LIB"), of("RATTLE_KIT"));
    for name in ["OCTETS_LIB", "LOOPS_LIB", "RATTLE_KIT"] {
        println!("cargo:rerun-if-env-changed={name}");
    }
    println!("cargo:rerun-if-changed={octets}/liboctets_c.a");
    println!("cargo:rerun-if-changed={loops}/liboctets_loops.a");
    for folder in [&octets, &loops, &format!("{kit}/c")] {
        println!("cargo:rustc-link-search=native={folder}");
    }
    // Debian's package libnghttp2-dev installs the library here.
    let installed = "/usr/lib/x86_64-linux-gnu";
    if std::path::Path::new(installed).join("libnghttp2.a").exists() {
        println!("cargo:rustc-cfg=nghttp2");
        println!("cargo:rustc-link-search=native={installed}");
        println!("cargo:rustc-link-lib=static=nghttp2");
    }
    for library in ["octets_c", "octets_loops", "libc_c"] {
        println!("cargo:rustc-link-lib=static={library}");
    }
}
