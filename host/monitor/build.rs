//! With the feature `proved`, links the static library that MPT_LIBRARY names. It is copied, so
//! that any file name will do.

use std::path::{Path, PathBuf};
use std::{env, fs, process};

fn main() {
    println!("cargo:rerun-if-env-changed=MPT_LIBRARY");
    println!("cargo:rerun-if-changed=build.rs");
    if env::var_os("CARGO_FEATURE_PROVED").is_some() {
        match env::var_os("MPT_LIBRARY") {
            Some(library) => link(Path::new(&library)),
            None => fail("feature `proved` needs the environment variable MPT_LIBRARY: the full path of the proved static library, as in MPT_LIBRARY=/path/to/libmpt-x86_64.a"),
        }
    }
}

fn link(library: &Path) {
    let name = library.display();
    let bytes = fs::read(library).unwrap_or_else(|error| {
        fail(&format!("MPT_LIBRARY={name}: {error}; it must be the full path of a static library"))
    });
    let folder = PathBuf::from(env::var_os("OUT_DIR").expect("cargo sets OUT_DIR"));
    if let Err(error) = fs::write(folder.join("libmpt_proved.a"), &bytes) {
        fail(&format!("{}: {error}", folder.display()));
    }
    println!("cargo:rerun-if-changed={name}");
    println!("cargo:rustc-link-search=native={}", folder.display());
    println!("cargo:rustc-link-lib=static=mpt_proved");
}

/// Cargo shows what a build script that failed has said.
fn fail(message: &str) -> ! {
    eprintln!("error: {message}");
    process::exit(1)
}
