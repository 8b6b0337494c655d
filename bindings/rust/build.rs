//! Finds the static library: in the folder that BADRUMELLO_LIB_DIR names, or else where `rt lib` leaves it in the repository.
use std::env;
use std::path::{Path, PathBuf};

/// The library's name in a folder: installed, or as the toolchain writes it.
fn name_in(folder: &Path) -> Option<&'static str> {
    ["badrumello", "editions"].into_iter().find(|name| folder.join(format!("lib{name}.a")).is_file())
}

fn main() {
    println!("cargo::rerun-if-env-changed=BADRUMELLO_LIB_DIR");
    let named = env::var_os("BADRUMELLO_LIB_DIR").filter(|value| !value.is_empty()).map(PathBuf::from);
    let here = PathBuf::from(env::var_os("CARGO_MANIFEST_DIR").expect("cargo sets CARGO_MANIFEST_DIR"));
    let folder = named.clone().unwrap_or_else(|| here.join("../../crates/editions/out"));
    println!("cargo::rerun-if-changed={}", folder.display());
    let Some(name) = name_in(&folder) else {
        let run = match named {
            Some(_) => "that is the folder BADRUMELLO_LIB_DIR names; after `./install PREFIX` in the repository it is PREFIX/lib, as a full path",
            None => {
                "run `rt lib` in crates/editions of the repository, or `./install PREFIX` at its top and set BADRUMELLO_LIB_DIR to PREFIX/lib, as a full path"
            }
        };
        println!("cargo::error=there is no libbadrumello.a and no libeditions.a in {}: {run}", folder.display());
        return;
    };
    println!("cargo::rerun-if-changed={}", folder.join(format!("lib{name}.a")).display());
    println!("cargo::rustc-link-search=native={}", folder.display());
    println!("cargo::rustc-link-lib=static={name}");
}
