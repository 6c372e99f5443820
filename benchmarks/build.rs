//! Links the library that `./library` wrote. The contenders of steps, packets and loss lines are linked once more for each place that
//! code can have in a block of 64 bytes, each as a shared library that src/places.rs loads.

use std::env;
use std::path::{Path, PathBuf};
use std::process::Command;

/// Compilers begin a function at every 16th byte.
const PLACES: usize = 4;
const BETWEEN_PLACES: usize = 16;

fn main() {
    let folder = Path::new(&given("CARGO_MANIFEST_DIR")).join("../target/library/x86_64-linux");
    println!("cargo:rustc-link-search=native={}", folder.display());
    println!("cargo:rustc-link-lib=static=tallowbrim");
    let core = folder.join("libtallowbrim.a");
    println!("cargo:rerun-if-changed={}", core.display());
    println!("cargo:rerun-if-changed=src/place.s");
    let contenders = [
        ("core", core),
        ("rust", rust("window")),
        ("c", c("window")),
        ("rust-list", rust("list")),
        ("c-list", c("list")),
    ];
    for place in 0..PLACES {
        let before = before(place);
        for (name, code) in &contenders {
            let shared = made(&format!("{name}-{place}.so"));
            run(Command::new("gcc").args(["-shared", "-Wl,-z,defs", "-o"]).arg(shared).arg(&before).args([
                "-Wl,--whole-archive".as_ref(),
                code.as_os_str(),
                "-Wl,--no-whole-archive".as_ref(),
            ]));
        }
    }
}

fn rust(peer: &str) -> PathBuf {
    let source = format!("src/{peer}.rs");
    let object = made(&format!("{peer}-rust.o"));
    run(Command::new(given("RUSTC"))
        .args(["--edition=2021", "--crate-type=lib", "-Copt-level=3", "-Ccodegen-units=1", "--emit=obj", &source, "-o"])
        .arg(&object));
    println!("cargo:rerun-if-changed={source}");
    object
}

fn c(peer: &str) -> PathBuf {
    let source = format!("src/{peer}.c");
    let object = made(&format!("{peer}-c.o"));
    run(Command::new("gcc")
        .args([
            "-O3",
            "-std=c11",
            "-fPIC",
            "-fno-semantic-interposition",
            "-Wall",
            "-Wextra",
            "-Werror",
            "-c",
            &source,
            "-o",
        ])
        .arg(&object));
    println!("cargo:rerun-if-changed={source}");
    object
}

/// What lies before the code at a place.
fn before(place: usize) -> PathBuf {
    let object = made(&format!("place-{place}.o"));
    run(Command::new("gcc")
        .arg(format!("-Wa,--defsym,PLACE={}", place * BETWEEN_PLACES))
        .args(["-c", "src/place.s", "-o"])
        .arg(&object));
    object
}

fn made(name: &str) -> PathBuf {
    Path::new(&given("OUT_DIR")).join(name)
}

fn given(variable: &str) -> String {
    env::var(variable).unwrap_or_else(|_| panic!("cargo gives {variable}"))
}

fn run(command: &mut Command) {
    let done = command.status().unwrap_or_else(|error| panic!("{command:?} is needed: {error}"));
    assert!(done.success(), "{command:?} did not compile");
}
