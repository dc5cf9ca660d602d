//! A linked program, of which copies are written with some bytes changed.

use std::os::unix::fs::PermissionsExt;
use std::path::Path;

pub struct Program {
    bytes: Vec<u8>,
    /// Of each part that is loaded: where in the file, where in memory, and how long.
    parts: Vec<[u64; 3]>,
}

impl Program {
    pub fn read(file: &Path) -> Self {
        let bytes = std::fs::read(file).expect("the program");
        assert!(
            bytes.starts_with(b"\x7FELF\x02\x01"),
            "an ELF file of 64 bits"
        );
        let number = |at: usize, length: usize| {
            let bytes = bytes[at..at + length].iter().rev();
            bytes.fold(0u64, |number, byte| number << 8 | u64::from(*byte))
        };
        let (table, size, count) = (number(32, 8), number(54, 2), number(56, 2));
        let headers = (0..count).map(|header| (table + header * size) as usize);
        let loaded = headers.filter(|header| number(*header, 4) == 1);
        let parts = loaded.map(|at| [8, 16, 32].map(|field| number(at + field, 8)));
        Program {
            parts: parts.collect(),
            bytes,
        }
    }

    /// Writes a copy with these bytes at a place in memory.
    pub fn write(&self, to: &Path, at: u64, new: &[u8]) {
        let holds = |part: &&[u64; 3]| (part[1]..part[1] + part[2]).contains(&at);
        let part = self
            .parts
            .iter()
            .find(holds)
            .expect("a part that is loaded");
        let from = (at - part[1] + part[0]) as usize;
        let mut bytes = self.bytes.clone();
        bytes[from..from + new.len()].copy_from_slice(new);
        std::fs::write(to, bytes).expect("a copy of the program");
        let runs = std::fs::Permissions::from_mode(0o755);
        std::fs::set_permissions(to, runs).expect("a copy that runs");
    }
}
