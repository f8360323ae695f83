//! Makes the bindings of the proved implementation from its Rattle source, and links it, a static
//! library beside this package.
//!
//! The library is for x86-64. A peer is built as well: an x86-64 program that calls it, and that the
//! toolchain's emulator runs where the processor is another.

#[allow(dead_code)]
#[path = "../src/library/exports.rs"]
mod exports;
#[allow(dead_code)]
#[path = "../src/library/header.rs"]
mod header;
mod in_c;
mod in_rust;
#[allow(dead_code)]
#[path = "../src/library/kit.rs"]
mod kit;

use exports::Table;
use kit::Kit;
use std::path::{Path, PathBuf};
use std::process::Command;
use std::{env, fs};

/// A folder with the library compiled for this processor, where that is not x86-64.
const NATIVE: &str = "CLOVERDUSK_NATIVE";

/// `peer`: the peer is asked on x86-64 too.
const CALLS: &str = "CLOVERDUSK_CALLS";

fn main() {
    let package = PathBuf::from(variable("CARGO_MANIFEST_DIR"));
    let folder = package.join("../crates/cloverdusk/out");
    let library = folder.join("libcloverdusk.a");
    let table = Table::of(&package.join(".."));
    println!("cargo:rerun-if-changed={}", package.join("build").display());
    check_age(&library, &table.files);
    let native = env::var_os(NATIVE).map(PathBuf::from);
    check_header(&table, &package.join("../include/cloverdusk.h"));
    write_bindings(&table, native.is_some());
    let is_direct = is_x86_64() && env::var(CALLS).as_deref() != Ok("peer");
    link(native.or(is_direct.then_some(folder)));
    build_peer(&package, &library);
}

/// Stops where the library is not of these sources: it would be called by a wrong declaration.
fn check_age(library: &Path, sources: &[PathBuf]) {
    let age = |file: &Path| file.metadata().and_then(|data| data.modified()).ok();
    let built = age(library);
    for file in sources.iter().map(PathBuf::as_path).chain([library]) {
        println!("cargo:rerun-if-changed={}", file.display());
        if built.is_none() || built < age(file) {
            panic!("the static library is missing or old: run `tools/library` first");
        }
    }
}

/// Stops where the C header is not of these exports, and says what to put there.
fn check_header(table: &Table, header: &Path) {
    println!("cargo:rerun-if-changed={}", header.display());
    let text = fs::read_to_string(header).expect("the header can be read");
    let drift = header::drift(table, &text);
    assert!(drift.is_empty(), "{drift}");
}

fn variable(name: &str) -> String {
    env::var(name).unwrap_or_else(|_| panic!("cargo sets {name}"))
}

fn is_x86_64() -> bool {
    variable("CARGO_CFG_TARGET_ARCH") == "x86_64"
}

fn out(name: &str) -> PathBuf {
    Path::new(&variable("OUT_DIR")).join(name)
}

fn write_bindings(table: &Table, answers_in_place: bool) {
    let texts = [
        ("functions.rs", in_rust::functions(table)),
        ("direct.rs", in_rust::direct(table, answers_in_place)),
        ("peer.rs", in_rust::by_peer(table)),
        ("ops.h", in_c::ops(table)),
    ];
    for (name, text) in texts {
        fs::write(out(name), text).expect("the build's own folder can be written");
    }
}

/// The library of that folder is called directly; where there is none, the peer is asked.
fn link(folder: Option<PathBuf>) {
    println!("cargo:rerun-if-env-changed={NATIVE}");
    println!("cargo:rerun-if-env-changed={CALLS}");
    println!("cargo:rustc-check-cfg=cfg(direct)");
    if let Some(folder) = folder {
        println!("cargo:rustc-cfg=direct");
        println!("cargo:rustc-link-search=native={}", folder.display());
        println!("cargo:rustc-link-lib=static=cloverdusk");
    }
}

/// Builds the peer, and tells the crate what builds and runs such a program.
fn build_peer(package: &Path, library: &Path) {
    let kit = Kit::of(kit_folder());
    let (source, peer) = (package.join("peer/peer.c"), out("peer"));
    let mut compiler = kit.compiler(&package.join(".."));
    let object = out("peer.o");
    run(compiler
        .args([
            "-O2",
            "-Wall",
            "-Wextra",
            "-Werror",
            "-I",
            &variable("OUT_DIR"),
        ])
        .args([Path::new("-c"), &source, Path::new("-o"), &object]));
    run(&mut kit.linker(&object, library, &peer));
    for path in [&source, &package.join("c")] {
        println!("cargo:rerun-if-changed={}", path.display());
    }
    println!("cargo:rustc-env=PEER={}", peer.display());
    println!("cargo:rustc-env=KIT={}", kit.folder.display());
    // A toolchain that has moved is looked for again.
    for file in kit.files() {
        println!("cargo:rerun-if-changed={}", file.display());
    }
}

/// The toolchain's folder: the guide that `rt doc` names lies in it.
fn kit_folder() -> PathBuf {
    let guide = run(Command::new("rt").arg("doc"));
    let folder = Path::new(guide.trim_end()).parent();
    folder.expect("the guide is in a folder").to_path_buf()
}

/// What the command printed. The build stops where it fails, with what it said.
fn run(command: &mut Command) -> String {
    let output = command
        .output()
        .unwrap_or_else(|error| panic!("{command:?}: {error}"));
    let said = String::from_utf8_lossy(&output.stderr);
    assert!(output.status.success(), "{command:?}: {said}");
    String::from_utf8(output.stdout).expect("paths are UTF-8")
}
