//! Resident memory, as Linux counts it.

use std::fs::{read_to_string, File};
use std::io::Read;
use std::os::unix::io::AsRawFd;
use std::str;

/// The highest resident memory during the call, less what was resident before, in bytes.
pub fn grown_by(call: impl FnOnce()) -> u64 {
    let before = bytes_of("VmRSS:");
    call();
    bytes_of("VmHWM:").saturating_sub(before)
}

/// What a fill takes at its highest, and with all entries held, in bytes.
pub fn print_memory(fill: impl FnOnce(&mut Resident) -> usize) {
    let mut resident = Resident::new();
    resident.look();
    let before = resident.bytes();
    let mut resident = Resident::new();
    let highest = grown_by(|| {
        let entries = fill(&mut resident);
        assert!(entries > 0, "the cache is empty");
    });
    let rest = resident.bytes().saturating_sub(before);
    // Linux counts the highest to some pages only.
    println!("{} {}", highest.max(rest), rest);
}

/// The file that tells the resident memory to the page, and what was read of it: our side reads it by its number, while it
/// holds its entries. It can be read once.
pub struct Resident {
    file: File,
    seen: [u8; 256],
}

impl Resident {
    fn new() -> Resident {
        Resident {
            file: File::open("/proc/self/smaps_rollup").expect("/proc is there"),
            seen: [0; 256],
        }
    }

    pub fn look(&mut self) {
        let _ = self.file.read(&mut self.seen).expect("/proc can be read");
    }

    pub fn parts(&mut self) -> (i32, &mut [u8]) {
        (self.file.as_raw_fd(), &mut self.seen)
    }

    fn bytes(&self) -> u64 {
        field_of(str::from_utf8(&self.seen).expect("a text"), "Rss:")
    }
}

fn bytes_of(field: &str) -> u64 {
    field_of(
        &read_to_string("/proc/self/status").expect("/proc is there"),
        field,
    )
}

// A number of kilobytes, in bytes.
fn field_of(text: &str, field: &str) -> u64 {
    let line = text
        .lines()
        .find(|it| it.starts_with(field))
        .expect("a field of the text");
    let kilobytes = line
        .split_whitespace()
        .nth(1)
        .and_then(|it| it.parse::<u64>().ok());
    kilobytes.expect("a number of kilobytes") * 1024
}
