//! Finds libdeckmarten.a, by the folder that STATICLIB_DIR names or else by pkg-config, holds it to this crate's version and to the machine that is
//! built for, and has the crate linked with it.

use std::env;
use std::fs;
use std::path::{Path, PathBuf};
use std::process::{exit, Command};

/// The machines that there are archives for: their names to cargo, and their numbers in the header of an object file (`e_machine`).
const MACHINES: [(&str, u16); 2] = [("x86_64", 62), ("aarch64", 183)];

fn stop(reason: &str) -> ! {
    eprintln!("deckmarten: {reason} (docs/LINKING.md)");
    exit(1)
}

/// The folder of the archive.
fn folder() -> PathBuf {
    for name in ["STATICLIB_DIR", "PKG_CONFIG", "PKG_CONFIG_PATH", "PKG_CONFIG_LIBDIR", "PKG_CONFIG_SYSROOT_DIR"] {
        println!("cargo:rerun-if-env-changed={name}");
    }
    if let Some(folder) = env::var_os("STATICLIB_DIR") {
        return PathBuf::from(folder);
    }
    let program = env::var_os("PKG_CONFIG").unwrap_or("pkg-config".into());
    let said = Command::new(program).args(["--variable=libdir", "deckmarten"]).output();
    match said.map(|said| (said.status.success(), String::from_utf8(said.stdout))) {
        Ok((true, Ok(folder))) if !folder.trim().is_empty() => PathBuf::from(folder.trim()),
        _ => stop(
            "STATICLIB_DIR is not set, and pkg-config knows no deckmarten. `./install PREFIX` installs it, for PKG_CONFIG_PATH=PREFIX/lib/pkgconfig; \
             STATICLIB_DIR names a folder of libdeckmarten.a, and `tools/link cargo bindings/rust build` sets it",
        ),
    }
}

/// This crate's version as one number: a million times the major number, a thousand times the minor one, and the patch number.
fn version() -> u32 {
    let part = |name: &str| env::var(format!("CARGO_PKG_VERSION_{name}")).unwrap().parse::<u32>().unwrap();
    1_000_000 * part("MAJOR") + 1_000 * part("MINOR") + part("PATCH")
}

/// The names in an archive's index, which is its first member, `/`, behind a header of 60 bytes: how many there are, as many offsets, each of
/// four bytes with the greatest first, and the names, each with a zero behind it.
fn index(archive: &[u8]) -> Option<Vec<&[u8]>> {
    let member = archive.strip_prefix(b"!<arch>\n").filter(|member| member.starts_with(b"/ "))?;
    let size: usize = std::str::from_utf8(member.get(48..58)?).ok()?.trim().parse().ok()?;
    let (count, rest) = member.get(60..60 + size)?.split_at_checked(4)?;
    let count = u32::from_be_bytes(count.try_into().ok()?) as usize;
    Some(rest.get(4 * count..)?.split(|byte| *byte == 0).take(count).collect())
}

/// Stops where the archive's code is for another machine, or where it is of another version: then it does not have the function whose
/// name says this one.
fn check(archive: &Path) {
    let bytes = match fs::read(archive) {
        Ok(bytes) => bytes,
        Err(reason) => stop(&format!("{} cannot be read: {reason}", archive.display())),
    };
    let wanted = env::var("CARGO_CFG_TARGET_ARCH").unwrap_or_default();
    let number = bytes.windows(20).find(|part| part.starts_with(b"\x7fELF")).map(|part| u16::from_le_bytes([part[18], part[19]]));
    match MACHINES.iter().find(|(_, known)| Some(*known) == number) {
        None => stop(&format!("{} has no code for a machine that is known here", archive.display())),
        Some((machine, _)) if *machine != wanted => stop(&format!(
            "{} is {machine} code, and this builds for {wanted}. `tools/link cargo bindings/rust build` builds for x86-64; \
             `tools/link native deckmarten` writes an archive for aarch64",
            archive.display()
        )),
        Some(_) => {}
    }
    let name = format!("deckmarten_version_{}", version());
    if !index(&bytes).is_some_and(|names| names.contains(&name.as_bytes())) {
        stop(&format!("{} is of another version than this crate, which is {}", archive.display(), env!("CARGO_PKG_VERSION")));
    }
}

fn main() {
    let folder = folder();
    let archive = folder.join("libdeckmarten.a");
    if !archive.is_file() {
        stop(&format!("there is no {}. `tools/archive` puts it to target/staticlib", archive.display()));
    }
    check(&archive);
    println!("cargo:rerun-if-changed={}", archive.display());
    println!("cargo:rustc-link-search=native={}", folder.display());
    println!("cargo:rustc-link-lib=static=deckmarten");
}
