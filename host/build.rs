//! Finds or makes `libkatsunebyo.a` and tells the linker; in a release build also compiles the benchmark's peer.

use std::env;
use std::path::{Path, PathBuf};
use std::process::Command;

fn main() {
    let out = PathBuf::from(env::var("OUT_DIR").expect("cargo sets OUT_DIR"));
    let archive = out.join("libkatsunebyo.a");
    copy(&ready_archive(), &archive);
    println!("cargo:rustc-link-search=native={}", out.display());
    println!("cargo:rustc-link-lib=static=katsunebyo");
    // The C programs of the tests are linked with the same archive.
    println!("cargo:rustc-env=KATSUNEBYO_ARCHIVE={}", archive.display());
    println!("cargo:rustc-check-cfg=cfg(peer)");
    if env::var("PROFILE").as_deref() == Ok("release") {
        build_peer(&out);
    }
}

/// The archive that `KATSUNEBYO_LIB` names, else the one that the toolchain proves and builds.
fn ready_archive() -> PathBuf {
    println!("cargo:rerun-if-changed=build.rs");
    println!("cargo:rerun-if-env-changed=KATSUNEBYO_LIB");
    match env::var_os("KATSUNEBYO_LIB") {
        Some(path) => {
            let path = PathBuf::from(path);
            println!("cargo:rerun-if-changed={}", path.display());
            path
        }
        None => proved_archive(),
    }
}

fn proved_archive() -> PathBuf {
    let manifest = PathBuf::from(env::var("CARGO_MANIFEST_DIR").expect("cargo sets it"));
    let top = manifest
        .parent()
        .expect("host/ stands in the repository")
        .to_path_buf();
    watch(&top);
    let face = top.join("crates/katsunebyo_c");
    let run = Command::new("rt").arg("lib").current_dir(&face).output();
    match run {
        Err(why) => fail(&format!(
            "`rt` of the Rattle toolchain did not start ({why}). Put it on PATH, or name a ready archive: KATSUNEBYO_LIB=/path/to/libkatsunebyo.a"
        )),
        Ok(run) if !run.status.success() => fail(&format!(
            "`rt lib` in {} failed ({}):\n{}{}",
            face.display(),
            run.status,
            String::from_utf8_lossy(&run.stdout),
            String::from_utf8_lossy(&run.stderr)
        )),
        Ok(_) => face.join("out/libkatsunebyo_c.a"),
    }
}

/// Has the library built anew where a crate's text changes. Its out/ folder, which `rt lib` writes, is not watched.
fn watch(top: &Path) {
    println!(
        "cargo:rerun-if-changed={}",
        top.join("crates.txt").display()
    );
    let crates = top.join("crates");
    let found = match std::fs::read_dir(&crates) {
        Ok(found) => found,
        Err(why) => fail(&format!("{} could not be read: {why}", crates.display())),
    };
    for folder in found.flatten() {
        for part in ["src", "specs", "proofs"] {
            let part = folder.path().join(part);
            if part.exists() {
                println!("cargo:rerun-if-changed={}", part.display());
            }
        }
    }
}

fn copy(from: &Path, to: &Path) {
    if let Err(why) = std::fs::copy(from, to) {
        fail(&format!("{} could not be read: {why}", from.display()));
    }
}

fn fail(why: &str) -> ! {
    eprintln!("\n{why}\n");
    std::process::exit(1);
}

/// Crypto++ with the standard's modes over its block; without its header, or if it does not compile, there is no peer.
fn build_peer(out: &Path) {
    let source = "benches/speed/peer.cpp";
    println!("cargo:rerun-if-changed={source}");
    println!("cargo:rerun-if-env-changed=CXX");
    let header = Path::new("/usr/include/cryptopp/kalyna.h");
    if !header.exists() {
        // Not watched: a file that is not there would have the library built anew each time.
        return;
    }
    let object = out.join("peer.o");
    let compiler = env::var("CXX").unwrap_or_else(|_| "c++".into());
    let compiled = Command::new(&compiler)
        .args([
            "-std=c++17",
            "-O3",
            "-fPIC",
            "-Wall",
            "-Wextra",
            "-c",
            source,
            "-o",
        ])
        .arg(&object)
        .status();
    match compiled {
        Ok(status) if status.success() => {
            println!("cargo:rustc-cfg=peer");
            println!("cargo:rustc-link-arg-benches={}", object.display());
            println!("cargo:rustc-link-arg-benches=-lcryptopp");
            println!("cargo:rustc-link-arg-benches=-lstdc++");
        }
        _ => println!("cargo:warning={source} did not compile with {compiler}: the benchmark goes without Crypto++"),
    }
}
