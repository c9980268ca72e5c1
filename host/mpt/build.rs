//! With the feature `proved` and MPT_UNMARKED set, also links the proved library whose stores are not
//! marked: `mpt bench` says what the marking costs. Nothing else uses it.

use std::path::{Path, PathBuf};
use std::{env, fs, process};

fn main() {
    println!("cargo:rerun-if-env-changed=MPT_UNMARKED");
    println!("cargo:rerun-if-changed=build.rs");
    let proved = env::var_os("CARGO_FEATURE_PROVED").is_some();
    if let (true, Some(library)) = (proved, env::var_os("MPT_UNMARKED")) {
        link(Path::new(&library));
    }
}

fn link(library: &Path) {
    let folder = PathBuf::from(env::var_os("OUT_DIR").expect("cargo sets OUT_DIR"));
    if let Err(error) = fs::copy(library, folder.join("libmpt_unmarked.a")) {
        eprintln!("error: MPT_UNMARKED={}: {error}; it must be the full path of a static library", library.display());
        process::exit(1);
    }
    println!("cargo:rerun-if-changed={}", library.display());
    println!("cargo:rustc-link-search=native={}", folder.display());
    println!("cargo:rustc-link-lib=static=mpt_unmarked");
    println!("cargo:rustc-cfg=unmarked");
}
