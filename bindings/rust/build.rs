//! Finds libwave.a: in the folder that WAVE_LIB_DIR names, else in native/TARGET beside this file.
//! WAVE_LIB_DIR set to nothing links nothing, which serves `cargo check` and `cargo doc`.
use std::env;
use std::path::PathBuf;
use std::process::exit;

fn main() {
    println!("cargo:rerun-if-changed=build.rs");
    println!("cargo:rerun-if-env-changed=WAVE_LIB_DIR");
    let target = env::var("TARGET").unwrap_or_default();
    let folder = match env::var_os("WAVE_LIB_DIR") {
        Some(folder) if folder.is_empty() => return,
        Some(folder) => PathBuf::from(folder),
        None => {
            let here = env::var_os("CARGO_MANIFEST_DIR").unwrap_or_default();
            PathBuf::from(here).join("native").join(&target)
        }
    };
    // a folder is named from this package's own
    let folder = env::current_dir().unwrap_or_default().join(folder);
    let archive = folder.join("libwave.a");
    println!("cargo:rerun-if-changed={}", archive.display());
    if !archive.is_file() {
        eprintln!("wave: there is no libwave.a for {target} in {}.", folder.display());
        eprintln!("Build it with `bindings/build FOLDER` of the repository, and set");
        eprintln!("WAVE_LIB_DIR=FOLDER, which has to be an absolute path, as $PWD/lib.");
        exit(1);
    }
    println!("cargo:rustc-link-search=native={}", folder.display());
    println!("cargo:rustc-link-lib=static=wave");
}
