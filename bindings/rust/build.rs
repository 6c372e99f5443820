//! Links libtallowbrim.a: from the folder that TALLOWBRIM_LIBRARY names, or where ./library of the repository leaves it.

use std::env;
use std::path::{Path, PathBuf};

fn main() {
    println!("cargo:rerun-if-env-changed=TALLOWBRIM_LIBRARY");
    let folder = env::var_os("TALLOWBRIM_LIBRARY").map_or_else(built_here, PathBuf::from);
    let archive = folder.join("libtallowbrim.a");
    println!("cargo:rerun-if-changed={}", archive.display());
    if !archive.is_file() {
        end(&format!(
            "there is no {}: build it with ./library, or set TALLOWBRIM_LIBRARY to its folder",
            archive.display()
        ));
    }
    println!("cargo:rustc-link-search=native={}", folder.display());
    println!("cargo:rustc-link-lib=static=tallowbrim");
}

/// The folder of the target's archive in the repository that this crate stands in.
fn built_here() -> PathBuf {
    let of_target = |name: &str| env::var(format!("CARGO_CFG_TARGET_{name}")).unwrap_or_default();
    let target = match (&of_target("ARCH")[..], &of_target("OS")[..]) {
        ("x86_64", "linux") => "x86_64-linux",
        ("aarch64", "android") => "aarch64-android",
        (processor, system) => end(&format!(
            "no archive is built for {processor} and {system}: set TALLOWBRIM_LIBRARY to the folder of one"
        )),
    };
    let here = env::var("CARGO_MANIFEST_DIR").expect("cargo names the package's folder");
    Path::new(&here).join("../../target/library").join(target)
}

fn end(why: &str) -> ! {
    eprintln!("tallowbrim: {why}");
    std::process::exit(1)
}
