//! Sets the soname of the shared library, by which a program loads it, and gives it a build id, by which a debugger
//! finds its debug information. The library names the C library as one that it needs, since rustc doesn't for a crate
//! without `std`, and the addresses of the functions that it calls there are resolved when it is loaded (`-z now`).

fn main() {
    println!("cargo:rerun-if-changed=build.rs");
    let target_os = std::env::var("CARGO_CFG_TARGET_OS").unwrap_or_default();
    if ["linux", "android", "freebsd", "netbsd", "openbsd"].contains(&target_os.as_str()) {
        println!("cargo:rustc-cdylib-link-arg=-Wl,-soname,liboctets_c.so.0,--build-id=sha1,-z,now");
        println!("cargo:rustc-cdylib-link-arg=-lc");
    }
}
