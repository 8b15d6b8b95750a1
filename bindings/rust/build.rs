//! Has the proved archive linked: NYRKOVASH_LIB, or the one that `tools/archive` writes. It is for x86-64: for another
//! target there is nothing to link, and what uses the crate can be checked and not run.

use std::path::Path;

fn main() {
    println!("cargo:rerun-if-env-changed=NYRKOVASH_LIB");
    if std::env::var("CARGO_CFG_TARGET_ARCH").as_deref() != Ok("x86_64") {
        return;
    }
    let archive = std::env::var("NYRKOVASH_LIB").unwrap_or_else(|_| {
        format!(
            "{}/../../target/staticlib/libnyrkovash.a",
            env!("CARGO_MANIFEST_DIR")
        )
    });
    println!("cargo:rerun-if-changed={archive}");
    let out = std::env::var("OUT_DIR").expect("cargo sets OUT_DIR");
    // By its own name, whatever that of NYRKOVASH_LIB is.
    if let Err(why) = std::fs::copy(&archive, Path::new(&out).join("libnyrkovash.a")) {
        panic!("{archive}: {why}; `tools/archive` writes it");
    }
    println!("cargo:rustc-link-search=native={out}");
    println!("cargo:rustc-link-lib=static=nyrkovash");
}
