//! Links the archive that `rt lib` wrote in crates/deltawobble, where it was made for the processor that
//! this program is built for; elsewhere the program calls it through the host process (host.c). Either
//! way the program is told ARCHIVE_CALLS: the calls that the archive's own index has. BENCH_ARCHIVE names
//! another archive of that name (a whole path), to try this program on.

use std::path::{Path, PathBuf};

/// The machine number in the header of an ELF file, by processor.
const MACHINES: [(&str, u16); 2] = [("x86_64", 62), ("aarch64", 183)];

fn main() {
    let here = std::env::var("CARGO_MANIFEST_DIR").expect("cargo names the folder");
    let archive = std::env::var("BENCH_ARCHIVE").map(PathBuf::from);
    let ours = || Path::new(&here).join("../crates/deltawobble/out/libdeltawobble.a");
    let archive = archive.unwrap_or_else(|_| ours());
    let folder = archive.parent().expect("an archive lies in a folder");
    println!("cargo:rustc-check-cfg=cfg(linked)");
    println!("cargo:rerun-if-changed=build.rs");
    println!("cargo:rerun-if-env-changed=BENCH_ARCHIVE");
    println!("cargo:rerun-if-changed={}", archive.display());
    let processor = std::env::var("CARGO_CFG_TARGET_ARCH").expect("cargo names the processor");
    let wanted = MACHINES.iter().find(|(name, _)| *name == processor).map(|(_, machine)| *machine);
    let bytes = std::fs::read(&archive).unwrap_or_default();
    let found = machine(&bytes);
    if found.is_some() && found == wanted {
        println!("cargo:rustc-cfg=linked");
        println!("cargo:rustc-link-search=native={}", folder.display());
        println!("cargo:rustc-link-lib=static=deltawobble");
    }
    let names =
        names(&bytes).expect("the archive has an index: rt lib in crates/deltawobble writes it");
    let calls: Vec<&str> =
        names.iter().filter_map(|name| name.strip_prefix("deltawobble_")).collect();
    println!("cargo:rustc-env=ARCHIVE_CALLS={}", calls.join(" "));
}

/// The machine number of the first ELF file in an archive.
fn machine(archive: &[u8]) -> Option<u16> {
    let at = archive.windows(4).position(|four| four == b"\x7fELF")?;
    let number = archive.get(at + 18..at + 20)?;
    Some(u16::from_le_bytes([number[0], number[1]]))
}

/// The names in an archive's index: its first member, `/`, has their count, as many offsets, then the
/// names, each with a zero behind it.
fn names(archive: &[u8]) -> Option<Vec<String>> {
    let member = archive.strip_prefix(b"!<arch>\n")?;
    let size = std::str::from_utf8(member.get(48..58)?).ok()?.trim().parse::<usize>().ok()?;
    let index = member.get(60..60 + size).filter(|_| member.starts_with(b"/ "))?;
    let count = u32::from_be_bytes(index.get(..4)?.try_into().ok()?) as usize;
    let names = index.get(4 + 4 * count..)?.split(|&byte| byte == 0);
    Some(names.map(|name| String::from_utf8_lossy(name).into_owned()).collect())
}
