//! Where the archive stands: in the directory that KOPHDAEN_LIB names, as an absolute path.

/// The proved crate that `rt lib` makes the archive of.
const CRATE: &str = "kophdaen";

fn main() {
    println!("cargo:rerun-if-env-changed=KOPHDAEN_LIB");
    let directory = std::env::var("KOPHDAEN_LIB")
        .unwrap_or_else(|_| panic!("set KOPHDAEN_LIB to the directory of lib{CRATE}.a"));
    println!("cargo:rerun-if-changed={directory}/lib{CRATE}.a");
    println!("cargo:rustc-link-search=native={directory}");
    println!("cargo:rustc-link-lib=static={CRATE}");
}
