//! Links the product's archives, which make writes. They are for x86-64; elsewhere src/elsewhere.rs stands in for them, unless
//! FRUNDAVEL_ARCHIVE names the folder of another (harness/native).

use std::env;
use std::path::{Path, PathBuf};

/// The crates whose C calls are tried: the product's, and the call worked in rows, which is compared with it.
const ARCHIVES: [&str; 2] = ["frundavel", "rows"];

fn main() {
    println!("cargo:rerun-if-env-changed=FRUNDAVEL_ARCHIVE");
    println!("cargo:rustc-check-cfg=cfg(linked)");
    let Some(folder) = folder() else {
        return;
    };
    println!("cargo:rustc-cfg=linked");
    println!("cargo:rustc-link-search=native={}", folder.display());
    for name in ARCHIVES {
        let archive = folder.join(format!("lib{name}.a"));
        println!("cargo:rerun-if-changed={}", archive.display());
        assert!(
            archive.exists(),
            "no archive to link: run `make target/staticlib/lib{name}.a` first"
        );
        println!("cargo:rustc-link-lib=static={name}");
    }
}

/// Where the archive stands, if this machine has one.
fn folder() -> Option<PathBuf> {
    let top = Path::new(env!("CARGO_MANIFEST_DIR")).join("..");
    if let Some(named) = env::var_os("FRUNDAVEL_ARCHIVE") {
        return Some(top.join(named));
    }
    let ours = env::var("CARGO_CFG_TARGET_ARCH").as_deref() == Ok("x86_64");
    ours.then(|| top.join("target/staticlib"))
}
