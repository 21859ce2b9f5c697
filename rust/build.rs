//! Links libkozbrax.a: that of the folder which KOZBRAX_LIB_DIR names, else crates/kozbrax/out/libkozbrax.a of the repository.
use std::env;
use std::path::PathBuf;

fn main() {
    println!("cargo:rerun-if-env-changed=KOZBRAX_LIB_DIR");
    let folder = match env::var_os("KOZBRAX_LIB_DIR") {
        Some(named) => PathBuf::from(named),
        None => {
            let here = PathBuf::from(env::var_os("CARGO_MANIFEST_DIR").expect("cargo names the package's folder"));
            here.join("../crates/kozbrax/out")
        }
    };
    let archive = folder.join("libkozbrax.a");
    assert!(
        archive.exists(),
        "no {}: run `rt lib` in the repository's crates/kozbrax, or set KOZBRAX_LIB_DIR to the whole path of the folder that \
         has libkozbrax.a",
        archive.display()
    );
    println!("cargo:rustc-link-search=native={}", folder.display());
    println!("cargo:rustc-link-lib=static=kozbrax");
    println!("cargo:rerun-if-changed={}", archive.display());
}
