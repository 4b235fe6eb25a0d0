//! Links the engine, a static library: `libhost.a` or `libhost_c.a` in the folder that KEEP_LIB_DIR names, else
//! `../crates/host_c/out/libhost_c.a`, where `rt lib` leaves it, else `lib/libhost.a`, where a built one stands.

use std::env;
use std::path::PathBuf;

fn main() {
    println!("cargo:rerun-if-changed=build.rs");
    println!("cargo:rerun-if-env-changed=KEEP_LIB_DIR");
    let target = ["CARGO_CFG_TARGET_ARCH", "CARGO_CFG_TARGET_OS"].map(|name| env::var(name).unwrap_or_default());
    if target != ["x86_64", "linux"] {
        panic!("the engine is built for x86-64 Linux, not for {} {}", target[0], target[1]);
    }
    let Some((folder, name)) = places().into_iter().find(|(folder, name)| folder.join(archive(name)).exists()) else {
        panic!("there is no library: {:?}", places());
    };
    let library = folder.join(archive(name));
    println!("cargo:rerun-if-changed={}", library.display());
    println!("cargo:rustc-link-search=native={}", folder.display());
    println!("cargo:rustc-link-lib=static={name}");
    println!("cargo:rustc-env=KEEP_LIBRARY={}", library.display());
}

fn archive(name: &str) -> String {
    format!("lib{name}.a")
}

/// Where the library is looked for, in order: folders, and its name there.
fn places() -> Vec<(PathBuf, &'static str)> {
    if let Some(folder) = env::var_os("KEEP_LIB_DIR") {
        return ["host", "host_c"].map(|name| (PathBuf::from(&folder), name)).into();
    }
    let manifest = PathBuf::from(env::var_os("CARGO_MANIFEST_DIR").expect("cargo gives the manifest's folder"));
    vec![(manifest.join("../crates/host_c/out"), "host_c"), (manifest.join("lib"), "host")]
}
