//! Links the archive of an earlier library beside that of the package kozbrax, where KOZBRAX_BEFORE names the folder crates/ of an
//! earlier repository.
use std::env;
use std::path::{Path, PathBuf};
use std::process::Command;

/// What the subject `map` calls of the earlier archive, and the names that it gets there.
const RENAMED: [(&str, &str); 2] = [("kozbrax_first_label", "before_first_label"), ("kozbrax_owner", "before_owner")];

fn main() {
    println!("cargo:rustc-check-cfg=cfg(before)");
    println!("cargo:rerun-if-env-changed=KOZBRAX_BEFORE");
    if let Ok(earlier) = env::var("KOZBRAX_BEFORE") {
        println!("cargo:rustc-env=KOZBRAX_BEFORE={earlier}");
        link_earlier(&Path::new(&earlier).join("kozbrax/out/libkozbrax.a"));
    }
}

/// Links a copy of the archive in which the functions of `RENAMED` have their new names and no other is seen from outside.
fn link_earlier(archive: &Path) {
    let folder = PathBuf::from(env::var("OUT_DIR").expect("cargo names a folder for what is built"));
    let mut objcopy = Command::new("objcopy");
    for (old, new) in RENAMED {
        objcopy.arg(format!("--redefine-sym={old}={new}")).arg(format!("--keep-global-symbol={new}"));
    }
    let done = objcopy.arg(archive).arg(folder.join("libbefore.a")).status().expect("objcopy of the binutils");
    assert!(done.success(), "objcopy on {}", archive.display());
    println!("cargo:rustc-link-search=native={}", folder.display());
    println!("cargo:rustc-link-lib=static=before");
    println!("cargo:rerun-if-changed={}", archive.display());
    println!("cargo:rustc-cfg=before");
}
