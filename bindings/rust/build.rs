//! Finds the archive of the C library: in the folder PERF_EVENT_DATA_LIB_DIR, by pkg-config, or
//! beside this crate in `lib/TARGET`. Without one, the crate is checked and documented, but not linked.

use std::env;
use std::path::{Path, PathBuf};
use std::process::Command;

/// The names that the archive may have, without `lib` and `.a`.
const NAMES: [&str; 2] = ["perf_event_data", "perf_event_c"];

/// What the error of a build without the archive tells, after its name.
const ABSENT: &str = "set PERF_EVENT_DATA_LIB_DIR to the folder of libperf_event_data.a, or install it for pkg-config";

/// The name of the archive in a folder, if there is one.
fn name_in(folder: &Path) -> Option<&'static str> {
    NAMES
        .into_iter()
        .find(|name| folder.join(format!("lib{name}.a")).is_file())
}

/// The folder that pkg-config returns for a name.
fn by_pkg_config(name: &str) -> Option<PathBuf> {
    let program = env::var("PKG_CONFIG").unwrap_or_else(|_| "pkg-config".to_owned());
    let output = Command::new(program)
        .args(["--variable=libdir", name])
        .output()
        .ok()?;
    let folder = String::from_utf8(output.stdout).ok()?.trim().to_owned();
    (output.status.success() && !folder.is_empty()).then(|| folder.into())
}

/// The folders that may contain the archive. One that was named is the only one.
fn folders() -> Vec<PathBuf> {
    if let Some(named) = env::var_os("PERF_EVENT_DATA_LIB_DIR") {
        return vec![named.into()];
    }
    let mut all: Vec<PathBuf> = NAMES.into_iter().filter_map(by_pkg_config).collect();
    let here = env::var_os("CARGO_MANIFEST_DIR").expect("cargo sets CARGO_MANIFEST_DIR");
    let target = env::var_os("TARGET").expect("cargo sets TARGET");
    all.push(Path::new(&here).join("lib").join(target));
    all
}

fn main() {
    println!("cargo:rerun-if-changed=build.rs");
    println!("cargo:rerun-if-env-changed=PERF_EVENT_DATA_LIB_DIR");
    println!("cargo:rerun-if-env-changed=PKG_CONFIG");
    let folders = folders();
    for folder in &folders {
        println!("cargo:rerun-if-changed={}", folder.display());
        if let Some(name) = name_in(folder) {
            let archive = folder.join(format!("lib{name}.a"));
            println!("cargo:rerun-if-changed={}", archive.display());
            println!("cargo:rustc-link-search=native={}", folder.display());
            println!("cargo:rustc-link-lib=static={name}");
            return;
        }
    }
    // Only what is linked needs the archive, so `cargo check` and `cargo doc` do without. The compiler's error
    // repeats the name of an absent library.
    println!("cargo:rustc-link-lib=static={} ({ABSENT})", NAMES[0]);
}
