//! Links the static library that `make` writes below the project root.

use std::path::Path;
use std::process::exit;

fn main() {
    let root = Path::new(env!("CARGO_MANIFEST_DIR"))
        .parent()
        .expect("the tests stand in a folder of the project");
    let folder = root.join("target/staticlib");
    let archive = folder.join("libridgecrook.a");
    println!("cargo:rerun-if-changed={}", archive.display());
    if !archive.is_file() {
        eprintln!(
            "{} is missing: run `make` in {}",
            archive.display(),
            root.display()
        );
        exit(1);
    }
    let linked = sum(&std::fs::read(&archive).expect("the archive can be read"));
    println!("cargo:rustc-env=RIDGECROOK_LINKED={linked:016x}");
    println!("cargo:rustc-link-search=native={}", folder.display());
    println!("cargo:rustc-link-lib=static=ridgecrook");
}

/// FNV-1a: names the archive, so that what was found of one is not taken for another.
fn sum(bytes: &[u8]) -> u64 {
    let step = |sum: u64, byte: &u8| (sum ^ u64::from(*byte)).wrapping_mul(0x0000_0100_0000_01B3);
    bytes.iter().fold(0xCBF2_9CE4_8422_2325, step)
}
