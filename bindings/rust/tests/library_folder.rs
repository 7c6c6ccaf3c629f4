// SPDX-License-Identifier: MIT OR Apache-2.0
//! The folders in which the build looks for the library, its version and processor, and the targets for which there is one.
#[allow(dead_code)]
#[path = "../build.rs"]
mod build;

use std::fs;
use std::path::{Path, PathBuf};

/// The number of x86-64 and of ARM64 in the head of an object file.
const X86_64: u8 = 62;
const ARM64: u8 = 183;

/// Returns the bytes of what stands for a library: the head of an object file, and a version.
fn library(processor: u8, version: &str) -> Vec<u8> {
    let head = [b"!<arch>\0\x7fELF".as_slice(), &[0; 14], &[processor, 0]].concat();
    [head, format!("cadence_c {version}\0").into_bytes()].concat()
}

/// Makes folders for one test: `archive/bindings/rust`, with the libraries in `archive/lib`, and `alone/bindings/rust`.
fn folders(test: &str) -> PathBuf {
    let folder = PathBuf::from(env!("CARGO_TARGET_TMPDIR")).join(test);
    for place in ["archive/bindings/rust", "archive/lib/aarch64-linux-gnu", "alone/bindings/rust", "elsewhere", "empty", "old"]
    {
        fs::create_dir_all(folder.join(place)).unwrap();
    }
    let libraries = [
        ("archive/lib", X86_64, build::VERSION),
        ("archive/lib/aarch64-linux-gnu", ARM64, build::VERSION),
        ("elsewhere", X86_64, build::VERSION),
        ("old", X86_64, "0.5.0"),
    ];
    for (place, processor, version) in libraries {
        fs::write(folder.join(place).join("libcadence_c.a"), library(processor, version)).unwrap();
    }
    folder
}

#[test]
fn the_folder_of_the_variable_is_taken_before_the_one_beside() {
    let top = folders("beside");
    let elsewhere = top.join("elsewhere");
    for crate_folder in ["archive/bindings/rust", "alone/bindings/rust"] {
        assert_eq!(elsewhere, build::folder(&top.join(crate_folder), elsewhere.to_str(), "x86_64").unwrap());
    }
    let found = build::folder(&top.join("archive/bindings/rust"), None, "x86_64").unwrap();
    assert_eq!(top.join("archive/lib").canonicalize().unwrap(), found.canonicalize().unwrap());
}

#[test]
fn the_folder_of_the_processor_is_taken_first() {
    let top = folders("processors");
    let lib = top.join("archive/lib");
    let own = lib.join("aarch64-linux-gnu");
    for named in [&lib, &own] {
        assert_eq!(own, build::folder(&top.join("alone/bindings/rust"), named.to_str(), "aarch64").unwrap());
    }
    let beside = build::folder(&top.join("archive/bindings/rust"), None, "aarch64").unwrap();
    assert_eq!(own.canonicalize().unwrap(), beside.canonicalize().unwrap());
}

#[test]
fn a_library_for_another_processor_is_refused() {
    let top = folders("others");
    for (named, arch) in [("elsewhere", "aarch64"), ("archive/lib/aarch64-linux-gnu", "x86_64"), ("archive/lib", "riscv64")] {
        let fault = build::folder(&top.join("archive/bindings/rust"), top.join(named).to_str(), arch).unwrap_err();
        assert!(fault.contains(&format!("libcadence_c.a is not a library for the processor {arch}. ")), "{fault}");
    }
}

#[test]
fn a_fault_names_the_variable_and_the_cure() {
    let top = folders("faults");
    let (archive, alone, empty) = (top.join("archive/bindings/rust"), top.join("alone/bindings/rust"), top.join("empty"));
    let faults = [
        (&alone, None, "CADENCE_LIB is not set, and there is no libcadence_c.a in "),
        (&alone, Some("elsewhere"), "CADENCE_LIB is the relative path \"elsewhere\""),
        (&alone, Some(""), "CADENCE_LIB is the relative path \"\""),
        (&alone, empty.to_str(), "there is no libcadence_c.a"),
        (&alone, Some("/nowhere/at/all"), "CADENCE_LIB is \"/nowhere/at/all\", and there is no libcadence_c.a in "),
        (&archive, Some("elsewhere"), "CADENCE_LIB is the relative path \"elsewhere\""),
        (&archive, empty.to_str(), "there is no libcadence_c.a"),
    ];
    for (crate_folder, variable, wanted) in faults {
        let fault = build::folder(crate_folder, variable, "x86_64").unwrap_err();
        assert!(fault.contains(wanted), "{fault}");
        assert!(fault.contains("Set CADENCE_LIB to the absolute path of the folder"), "{fault}");
    }
}

#[test]
fn a_library_of_another_version_is_refused() {
    let top = folders("versions");
    let fault = build::folder(&top.join("archive/bindings/rust"), top.join("old").to_str(), "x86_64").unwrap_err();
    assert!(fault.contains(&format!("libcadence_c.a is not version {} of the library", build::VERSION)), "{fault}");
}

#[test]
fn the_version_is_the_headers() {
    let header = Path::new(env!("CARGO_MANIFEST_DIR")).join("../../include/cadence.h");
    assert!(fs::read_to_string(header).unwrap().contains(&format!("#define CADENCE_VERSION \"{}\"\n", build::VERSION)));
    assert_eq!(format!("1.8.0+proved.{}", build::VERSION), env!("CARGO_PKG_VERSION"));
}

#[test]
fn another_target_is_refused() {
    for arch in ["x86_64", "aarch64"] {
        for env in ["gnu", "musl"] {
            assert_eq!(Ok(()), build::check_target(arch, "linux", env));
        }
    }
    for (arch, os, env) in
        [("riscv64", "linux", "gnu"), ("aarch64", "macos", ""), ("x86_64", "linux", "ohos"), ("x86_64", "windows", "gnu")]
    {
        let fault = build::check_target(arch, os, env).unwrap_err();
        assert!(fault.contains("builds only for Linux on x86-64 and ARM64, with glibc or musl, and the target is "), "{fault}");
        assert!(fault.contains(&format!("{arch}, {os}, ")) && !fault.contains('\n'), "{fault}");
    }
}
