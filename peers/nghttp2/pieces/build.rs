//! Links the C library in the folder OCTETS_LIB, and the static library of nghttp2.
fn main() {
    let folder = std::env::var("OCTETS_LIB").expect("OCTETS_LIB is the folder of a liboctets_c.a");
    println!("cargo:rerun-if-env-changed=OCTETS_LIB");
    println!("cargo:rerun-if-changed={folder}/liboctets_c.a");
    println!("cargo:rustc-link-arg={folder}/liboctets_c.a");
    println!("cargo:rustc-link-arg=-l:libnghttp2.a");
}
