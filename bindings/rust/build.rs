// SPDX-License-Identifier: MIT OR Apache-2.0
//! Links libcadence_c.a: from the folder that `CADENCE_LIB` names, and otherwise from `lib/` of the archive, if this crate
//! is in one. If the folder has a folder of the processor, such as `aarch64-linux-gnu/`, the library there is taken.
use std::path::{Path, PathBuf};
use std::{env, fs};

/// The file that is linked.
const LIBRARY: &str = "libcadence_c.a";

/// The version of the library for which this crate is written.
pub const VERSION: &str = "0.9.0";

/// What the error says that a user can do about a missing library.
const CURE: &str = "Set CADENCE_LIB to the absolute path of the folder that has libcadence_c.a, which is lib/ in the \
archive that ./package makes; in that archive bindings/rust finds it without the variable.";

/// The processors for which there is a library, by their names in Rust, with the number of each in the head of an object
/// file (ELF).
const PROCESSORS: [(&str, u8); 2] = [("x86_64", 62), ("aarch64", 183)];

/// Returns an error if there is no library for this target. The library needs nothing of glibc that musl lacks.
pub fn check_target(arch: &str, os: &str, env: &str) -> Result<(), String> {
    if PROCESSORS.iter().any(|(known, _)| *known == arch) && os == "linux" && (env == "gnu" || env == "musl") {
        return Ok(());
    }
    Err(format!(
        "The crate cadence over the proved library builds only for Linux on x86-64 and ARM64, with glibc or musl, and the \
         target is {arch}, {os}, {}: build for it with the crate of crates.io, without the patch in Cargo.toml.",
        if env.is_empty() { "no C library of Linux" } else { env }
    ))
}

/// Returns the processor of an object file that begins at the first head in these bytes, if there is one.
fn processor_of(bytes: &[u8]) -> Option<u8> {
    let at = bytes.windows(4).position(|window| window == b"\x7fELF")?;
    bytes.get(at + 18).copied()
}

/// Returns the folder that has the library for a processor: the one that the variable names, or otherwise the one beside
/// the crate in an archive, or the folder of the processor in it.
///
/// The call fails if the variable is relative or names a folder without the library, even if there is one beside the
/// crate, because whoever set the variable meant that folder. It also fails if there is neither, or if the library is one
/// for another processor, or has another version than this crate.
pub fn folder(crate_folder: &Path, variable: Option<&str>, arch: &str) -> Result<PathBuf, String> {
    let named = variable.map_or_else(|| Ok(crate_folder.join("../../lib")), named_folder)?;
    let own = named.join(format!("{arch}-linux-gnu"));
    let folder = if own.join(LIBRARY).is_file() { own } else { named };
    let library = folder.join(LIBRARY);
    if !library.is_file() {
        let set = variable.map_or("CADENCE_LIB is not set".to_string(), |variable| format!("CADENCE_LIB is \"{variable}\""));
        return Err(format!("{set}, and there is no {LIBRARY} in {}. {CURE}", folder.display()));
    }
    check_library(&library, arch)?;
    Ok(folder)
}

/// Returns an error if a library is one for another processor, or has another version than this crate.
fn check_library(library: &Path, arch: &str) -> Result<(), String> {
    let bytes = fs::read(library).map_err(|error| format!("{} can't be read: {error}", library.display()))?;
    if !PROCESSORS.contains(&(arch, processor_of(&bytes).unwrap_or(0))) {
        return Err(format!("{} is not a library for the processor {arch}. {CURE}", library.display()));
    }
    let mark = format!("cadence_c {VERSION}\0");
    if !bytes.windows(mark.len()).any(|at| at == mark.as_bytes()) {
        return Err(format!(
            "{} is not version {VERSION} of the library, for which this crate is written. Take both from one archive.",
            library.display()
        ));
    }
    Ok(())
}

/// Returns the folder that the variable names, if it is absolute.
fn named_folder(variable: &str) -> Result<PathBuf, String> {
    let path = Path::new(variable);
    if !path.is_absolute() {
        return Err(format!(
            "CADENCE_LIB is the relative path \"{variable}\", and cargo would read it from another folder. {CURE}"
        ));
    }
    Ok(path.to_path_buf())
}

/// Returns a variable that cargo sets for a build, or nothing.
fn of_cargo(name: &str) -> String {
    env::var(name).unwrap_or_default()
}

/// Returns the folder of the library, if there is one for the target.
fn found() -> Result<PathBuf, String> {
    let arch = of_cargo("CARGO_CFG_TARGET_ARCH");
    check_target(&arch, &of_cargo("CARGO_CFG_TARGET_OS"), &of_cargo("CARGO_CFG_TARGET_ENV"))?;
    let variable = env::var_os("CADENCE_LIB").map(|value| value.to_string_lossy().into_owned());
    folder(Path::new(&of_cargo("CARGO_MANIFEST_DIR")), variable.as_deref(), &arch)
}

/// Tells cargo where the library is, or says what is wrong and ends with 1.
fn main() {
    println!("cargo:rerun-if-changed=build.rs");
    println!("cargo:rerun-if-env-changed=CADENCE_LIB");
    match found() {
        Ok(folder) => {
            println!("cargo:rustc-link-search=native={}", folder.display());
            println!("cargo:rerun-if-changed={}", folder.join(LIBRARY).display());
            println!("cargo:rustc-link-lib=static=cadence_c");
        }
        Err(fault) => {
            eprintln!("{fault}");
            std::process::exit(1);
        }
    }
}
