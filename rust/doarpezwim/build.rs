//! Links the proved archive, which the Rattle toolchain builds in the repository root.

use std::path::{Path, PathBuf};
use std::{env, fs};

/// Names another folder that holds the archive; a relative one counts from the folder `rust`.
const FOLDER: &str = "DOARPEZWIM_STATICLIB";
const ARCHIVE: &str = "libdoarpezwim.a";

fn main() {
    let folder = folder();
    let archive = folder.join(ARCHIVE);
    println!("cargo::rerun-if-env-changed={FOLDER}");
    println!("cargo::rerun-if-changed={}", archive.display());
    match fits(&archive) {
        Ok(()) => {
            println!("cargo::rustc-link-search=native={}", folder.display());
            println!("cargo::rustc-link-lib=static=doarpezwim");
        }
        // Cargo fails the build for it.
        Err(why) => println!("cargo::error={why}"),
    }
}

fn folder() -> PathBuf {
    let workspace = Path::new(&variable("CARGO_MANIFEST_DIR")).join("..");
    let folder = workspace.join(env::var_os(FOLDER).unwrap_or_else(|| "../target/staticlib".into()));
    fs::canonicalize(&folder).unwrap_or(folder)
}

fn variable(name: &str) -> String {
    env::var(name).unwrap_or_else(|_| panic!("cargo sets {name}"))
}

/// Says in one sentence why the archive cannot be linked, and what to do.
fn fits(archive: &Path) -> Result<(), String> {
    let at = archive.display();
    let bytes = fs::read(archive).map_err(|_| {
        format!(
            "There is no archive of the proved library at {at}: run `tools/staticlib.sh` in the repository root, \
             or set {FOLDER} to the folder that holds {ARCHIVE}."
        )
    })?;
    let is_for = processor(&bytes).ok_or_else(|| {
        format!("{at} is no archive for Linux on a known processor: build it again by `tools/staticlib.sh`.")
    })?;
    let target = (variable("CARGO_CFG_TARGET_OS"), variable("CARGO_CFG_TARGET_ARCH"));
    if target == ("linux".into(), is_for.into()) {
        return Ok(());
    }
    Err(format!(
        "The archive at {at} is for linux on {is_for} and does not link into a program for {} on {}: build for \
         --target x86_64-unknown-linux-gnu.",
        target.0, target.1
    ))
}

/// The processor of the first object file in an archive, by Rust's name for it.
fn processor(archive: &[u8]) -> Option<&'static str> {
    const MEMBER: usize = 60;
    let mut rest = archive.strip_prefix(b"!<arch>\n")?;
    while let Some((head, after)) = rest.split_at_checked(MEMBER) {
        let size: usize = std::str::from_utf8(&head[48..58]).ok()?.trim_end().parse().ok()?;
        let object = after.get(..size)?;
        if object.starts_with(b"\x7fELF") {
            return match object.get(18..20)? {
                [62, 0] => Some("x86_64"),
                [183, 0] => Some("aarch64"),
                _ => None,
            };
        }
        // A member starts at an even place.
        rest = after.get(size + size % 2..)?;
    }
    None
}
