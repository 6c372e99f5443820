//! The library that `./library` writes: the functions of its header, of each archive and of docs/CONTRACTS.md are the same.

use std::collections::BTreeSet;
use std::fs;
use std::path::Path;

/// The archives, by their folders, and the processor that each is for, by its number in an ELF header.
pub const ARCHIVES: [(&str, u16); 2] = [("x86_64-linux", 62), ("aarch64-android", 183)];

/// What a compiler may call by itself; an archive asks for no other function.
pub const ASKED: [&str; 5] = ["bcmp", "memcmp", "memcpy", "memmove", "memset"];

pub const PREFIX: &str = "tallowbrim_";

/// The functions that a header declares: each at the beginning of a line.
pub fn declared(header: &str) -> BTreeSet<String> {
    let name = |line: &str| line.strip_prefix("uint32_t ")?.split_once('(').map(|(name, _)| name.to_string());
    header.lines().filter_map(name).collect()
}

/// The global symbols of an archive, and for which processors its members are.
#[derive(Default)]
pub struct Archive {
    pub functions: BTreeSet<String>,
    pub asked: BTreeSet<String>,
    pub processors: BTreeSet<u16>,
}

/// None where the file is no archive of ELF objects.
pub fn archive(path: &Path) -> Option<Archive> {
    let bytes = fs::read(path).ok()?;
    let mut rest = bytes.strip_prefix(b"!<arch>\n")?;
    let mut archive = Archive::default();
    while !rest.is_empty() {
        let (head, behind) = rest.split_at_checked(60)?;
        let size: usize = std::str::from_utf8(&head[48..58]).ok()?.trim().parse().ok()?;
        let (member, behind) = behind.split_at_checked(size)?;
        if member.starts_with(b"\x7fELF") {
            symbols(member, &mut archive)?;
        }
        rest = behind.get(size % 2..).unwrap_or_default();
    }
    Some(archive)
}

const SYMBOL_TABLE: u64 = 2;
const SYMBOL_SIZE: usize = 24;
const GLOBAL: u8 = 1;

fn symbols(object: &[u8], archive: &mut Archive) -> Option<()> {
    archive.processors.insert(number(object, 0x12, 2)? as u16);
    let [sections, size, count] = [number(object, 0x28, 8)?, number(object, 0x3a, 2)?, number(object, 0x3c, 2)?];
    let section = |index: u64| object.get((sections + index * size) as usize..);
    for index in 0..count {
        let head = section(index)?;
        if number(head, 4, 4)? != SYMBOL_TABLE {
            continue;
        }
        let names = contents(object, section(number(head, 0x28, 4)?)?)?;
        for symbol in contents(object, head)?.chunks_exact(SYMBOL_SIZE) {
            let name = names.get(number(symbol, 0, 4)? as usize..)?.split(|byte| *byte == 0).next()?;
            let name = String::from_utf8_lossy(name).into_owned();
            if symbol[4] >> 4 == GLOBAL {
                let defined = number(symbol, 6, 2)? != 0;
                if defined { &mut archive.functions } else { &mut archive.asked }.insert(name);
            }
        }
    }
    Some(())
}

/// The bytes of a section, by its header.
fn contents<'a>(object: &'a [u8], head: &[u8]) -> Option<&'a [u8]> {
    object.get(number(head, 0x18, 8)? as usize..)?.get(..number(head, 0x20, 8)? as usize)
}

/// The little-endian number of so many bytes at a place.
fn number(bytes: &[u8], at: usize, size: usize) -> Option<u64> {
    Some(bytes.get(at..at + size)?.iter().rev().fold(0, |number, byte| number << 8 | u64::from(*byte)))
}
