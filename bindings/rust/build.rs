// SPDX-License-Identifier: MIT OR Apache-2.0
//! Finds libsums_hash: with the feature `bundled` the archive for the processor in native/, else in the folder
//! SUMS_HASH_LIB_DIR, else by pkg-config, which PKG_CONFIG names.

use std::path::{Path, PathBuf};
use std::{env, fs, process::Command};

fn main() {
    for name in ["SUMS_HASH_LIB_DIR", "PKG_CONFIG", "PKG_CONFIG_PATH"] {
        println!("cargo:rerun-if-env-changed={name}");
    }
    if !is_known() {
        panic!(
            "sums-hash: the library is for Linux on x86-64 and arm64, not for {}",
            target()
        );
    }
    if env::var_os("CARGO_FEATURE_BUNDLED").is_some() {
        bundled();
    } else if let Some(folder) = env::var_os("SUMS_HASH_LIB_DIR").filter(|folder| !folder.is_empty()) {
        named(PathBuf::from(folder));
    } else {
        by_pkg_config();
    }
}

/// What the crate is built for, as x86_64-unknown-linux-gnu.
fn target() -> String {
    env::var("TARGET").unwrap_or_default()
}

/// What cargo says of the target under this name.
fn told(name: &str) -> String {
    env::var(format!("CARGO_CFG_TARGET_{name}")).unwrap_or_default()
}

/// The processors that there is a library for, with the numbers that ELF has for them.
const PROCESSORS: [(&str, u8); 2] = [("x86_64", 62), ("aarch64", 183)];

/// Whether there is a library for the target: a processor of 64 bits, the lowest byte first.
fn is_known() -> bool {
    let system = ["OS", "POINTER_WIDTH", "ENDIAN"].map(told);
    system == ["linux", "64", "little"] && PROCESSORS.iter().any(|(name, _)| *name == told("ARCH"))
}

/// Links a file of the library, and again when it changes.
fn link(folder: &str, file: &str, kind: &str) {
    let (path, target) = (format!("{folder}/{file}"), target());
    let bytes = fs::read(&path).unwrap_or_else(|fault| panic!("sums-hash: {path}: {fault}"));
    if !is_for_processor(&bytes) {
        panic!("sums-hash: {path} is for another processor than {target}");
    }
    if told("ENV") != "gnu" && is_for_glibc(&bytes) {
        panic!("sums-hash: {path} needs glibc, and is not for {target}");
    }
    println!("cargo:rerun-if-changed={path}");
    println!("cargo:rustc-link-search=native={folder}");
    println!("cargo:rustc-link-lib={kind}=sums_hash");
}

/// Whether a file of the library is for the processor of the target, as the first head of an ELF file in it says.
fn is_for_processor(bytes: &[u8]) -> bool {
    let head = bytes.windows(20).find(|part| part.starts_with(b"\x7fELF"));
    let named = |number| PROCESSORS.contains(&(told("ARCH").as_str(), number));
    head.map_or(true, |head| named(head[18]) && head[19] == 0)
}

/// Whether a file of the library is for glibc alone: a shared one names it, and an archive of several levels a function
/// of it.
fn is_for_glibc(bytes: &[u8]) -> bool {
    ["libc.so.6", "gnu_get_libc_version"]
        .iter()
        .any(|name| bytes.windows(name.len()).any(|part| part == name.as_bytes()))
}

/// The workspace, of which no variable tells: the lowest folder above OUT_DIR that has a manifest, since OUT_DIR is in
/// its folder `target`, if cargo is given no other.
fn workspace() -> PathBuf {
    let out = PathBuf::from(env::var_os("OUT_DIR").expect("cargo sets it"));
    let found = out.ancestors().find(|above| above.join("Cargo.toml").exists());
    found.map(Path::to_owned).unwrap_or_else(|| {
        panic!(
            "sums-hash: no workspace is above {}, so SUMS_HASH_LIB_DIR has to begin with /",
            out.display()
        )
    })
}

fn named(folder: PathBuf) {
    let folder = if folder.is_absolute() {
        folder
    } else {
        workspace().join(folder)
    };
    let Some(path) = folder.to_str() else {
        panic!("sums-hash: SUMS_HASH_LIB_DIR is not UTF-8: {}", folder.display());
    };
    for (file, kind) in [("libsums_hash.a", "static"), ("libsums_hash.so", "dylib")] {
        if folder.join(file).exists() {
            return link(path, file, kind);
        }
    }
    panic!("sums-hash: SUMS_HASH_LIB_DIR has no libsums_hash.a and no libsums_hash.so: {path}");
}

fn bundled() {
    if told("ENV") != "gnu" {
        panic!(
            "sums-hash: the bundled archives are for glibc, and not for {}",
            target()
        );
    }
    let folder = env::var("CARGO_MANIFEST_DIR").expect("cargo sets it") + "/native/" + &told("ARCH");
    if !Path::new(&folder).join("libsums_hash.a").exists() {
        panic!(
            "sums-hash: no archive is in {folder}: it comes with the crate as it is published, not with its sources"
        );
    }
    link(&folder, "libsums_hash.a", "static");
}

fn by_pkg_config() {
    const ADVICE: &str = "install libsums_hash, set SUMS_HASH_LIB_DIR, or take the feature `bundled`";
    let host = env::var("HOST").unwrap_or_default();
    let tool = env::var("PKG_CONFIG").unwrap_or_else(|_| "pkg-config".to_owned());
    if host != target() && tool == "pkg-config" {
        panic!(
            "sums-hash: pkg-config is for {host}, not for {}: {ADVICE}, or name another in PKG_CONFIG",
            target()
        );
    }
    let answer = Command::new(tool)
        .args(["--libs", concat!("sums_hash >= ", env!("CARGO_PKG_VERSION"))])
        .output();
    let words = match answer {
        Ok(answer) if answer.status.success() => String::from_utf8_lossy(&answer.stdout).into_owned(),
        Ok(answer) => panic!("sums-hash: {}{ADVICE}", String::from_utf8_lossy(&answer.stderr)),
        Err(fault) => panic!("sums-hash: no pkg-config ({fault}): {ADVICE}"),
    };
    // a blank in a path has a backslash before it
    for word in words.replace("\\ ", "\0").split_whitespace() {
        let word = word.replace('\0', " ");
        if let Some(folder) = word.strip_prefix("-L") {
            println!("cargo:rustc-link-search=native={folder}");
        } else if let Some(folder) = word.strip_suffix("/libsums_hash.a") {
            return link(folder, "libsums_hash.a", "static");
        }
    }
    println!("cargo:rustc-link-lib=dylib=sums_hash");
}
