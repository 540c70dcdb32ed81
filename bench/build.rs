//! Links the proved library: MERSCLUND_LIB is the directory of libmersclund.a, if it isn't where
//! `tools/build archive` writes it.

use std::env;

const WRITTEN: &str = concat!(env!("CARGO_MANIFEST_DIR"), "/../target/staticlib");

fn main() {
    println!("cargo:rerun-if-env-changed=MERSCLUND_LIB");
    let directory = env::var("MERSCLUND_LIB").unwrap_or_else(|_| WRITTEN.to_owned());
    println!("cargo:rerun-if-changed={directory}/libmersclund.a");
    println!("cargo:rustc-link-search=native={directory}");
    println!("cargo:rustc-link-lib=static=mersclund");
}
