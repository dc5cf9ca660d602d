//! Finds the archive, and says so where it is not the one for this build: `GRASSMUNCH_LIB` names the folder that holds
//! libgrassmunch.a and grassmunch.stamp. In a shipment that is ../lib, and nothing need be set.
//!
//! Without an archive nothing is linked, which is enough for `cargo check` and `cargo doc`.
use std::env;
use std::fs;
use std::path::{Path, PathBuf};
use std::process::Command;

fn main() {
    println!("cargo::rerun-if-env-changed=GRASSMUNCH_LIB");
    let here = PathBuf::from(env::var("CARGO_MANIFEST_DIR").unwrap_or_default());
    let shipped = here.join("../lib");
    let folder = match env::var("GRASSMUNCH_LIB") {
        Ok(folder) => PathBuf::from(folder),
        Err(_) if shipped.join("libgrassmunch.a").exists() => shipped,
        Err(_) => {
            println!(
                "cargo::warning=GRASSMUNCH_LIB is not set: programs will not link (docs/HOUSE.md)"
            );
            return;
        }
    };
    let archive = folder.join("libgrassmunch.a");
    println!("cargo::rerun-if-changed={}", archive.display());
    if let Err(wrong) = fit(&archive)
        .and_then(|()| of_this_version(&folder))
        .and_then(|()| of_these_sources(&here, &folder))
    {
        println!("cargo::error={wrong}");
        return;
    }
    println!("cargo::rustc-link-search=native={}", folder.display());
    println!("cargo::rustc-link-lib=static=grassmunch");
}

/// The archive is for the processor that this is built for.
fn fit(archive: &Path) -> Result<(), String> {
    let name = archive.display();
    let bytes = fs::read(archive).map_err(|error| {
        format!("{name} can't be read ({error}): GRASSMUNCH_LIB is the folder that holds it, as a whole path")
    })?;
    let found = processor(&bytes).ok_or(format!("{name} is no archive of ELF objects"))?;
    let wanted = env::var("CARGO_CFG_TARGET_ARCH").unwrap_or_default();
    if found == wanted {
        return Ok(());
    }
    Err(format!(
        "{name} is for {found}, and this is built for {wanted}: the library is proved and compiled for x86-64 alone (docs/HOUSE.md)"
    ))
}

/// The processor of the first object in an archive, by Rust's name for it.
fn processor(archive: &[u8]) -> Option<String> {
    let mut rest = archive.strip_prefix(b"!<arch>\n")?;
    loop {
        let size = std::str::from_utf8(rest.get(48..58)?).ok()?;
        let size: usize = size.trim_end().parse().ok()?;
        let member = rest.get(60..60 + size)?;
        if member.starts_with(b"\x7FELF") {
            let machine = [*member.get(18)?, *member.get(19)?];
            return Some(match u16::from_le_bytes(machine) {
                62 => "x86_64".into(),
                183 => "aarch64".into(),
                other => format!("another processor (ELF machine {other})"),
            });
        }
        rest = rest.get(60 + size + size % 2..)?;
    }
}

/// Archive and crate are of one version, as the stamp beside the archive says.
fn of_this_version(folder: &Path) -> Result<(), String> {
    let stamp = folder.join("grassmunch.stamp");
    println!("cargo::rerun-if-changed={}", stamp.display());
    let name = stamp.display();
    let Ok(text) = fs::read_to_string(&stamp) else {
        println!("cargo::warning={name} is not there: nothing tells which version the archive is");
        return Ok(());
    };
    let found = text.lines().find_map(|line| line.strip_prefix("version "));
    let (found, wanted) = (found.unwrap_or("unknown"), env!("CARGO_PKG_VERSION"));
    if found == wanted {
        return Ok(());
    }
    Err(format!(
        "{name}: the archive is version {found}, and this crate is {wanted}: take both from one build or shipment"
    ))
}

/// In a checkout, where the library's sources stand beside this crate, the archive is of those sources.
fn of_these_sources(here: &Path, folder: &Path) -> Result<(), String> {
    let (test, sources) = (here.join("../../.ci/archive"), here.join("../../crates"));
    if !test.exists() || !sources.exists() || !folder.join("grassmunch.stamp").exists() {
        return Ok(());
    }
    println!("cargo::rerun-if-changed={}", sources.display());
    let check = Command::new("bash")
        .arg(&test)
        .arg("check")
        .arg(folder)
        .output();
    match check {
        Ok(said) if !said.status.success() => {
            Err(String::from_utf8_lossy(&said.stderr).trim().to_owned())
        }
        _ => Ok(()),
    }
}
