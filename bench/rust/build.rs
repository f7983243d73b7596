//! Links the functions measured: the archive that MOULT_PLACES names and places.sh makes. With MOULT_BEFORE set it has an
//! earlier library of ours, too.

use std::env;
use std::path::PathBuf;

fn main() {
    println!("cargo:rerun-if-env-changed=MOULT_PLACES");
    let archive = env::var_os("MOULT_PLACES").expect("MOULT_PLACES is not set: use `make bench`");
    let archive = PathBuf::from(archive);
    println!("cargo:rerun-if-changed={}", archive.display());
    let folder = archive.parent().expect("the archive stands in a folder");
    println!("cargo:rerun-if-env-changed=MOULT_BEFORE");
    println!("cargo:rustc-check-cfg=cfg(before)");
    if env::var_os("MOULT_BEFORE").is_some_and(|before| !before.is_empty()) {
        println!("cargo:rustc-cfg=before");
    }
    println!("cargo:rustc-link-search=native={}", folder.display());
    println!("cargo:rustc-link-lib=static=places");
}
