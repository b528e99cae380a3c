//! A SCSI disk of few commands, in RAM or on a file. It knows CDBs and nothing of a transport.

mod commands;

pub use commands::{Outcome, Sense, MOST_BYTES};

use std::fs::{File, OpenOptions};
use std::io;
use std::ops::Range;
use std::os::unix::fs::FileExt;
use std::path::Path;
use std::sync::{PoisonError, RwLock};

/// The bytes of a block.
pub const BLOCK: usize = 512;

pub struct Disk {
    /// Its LUN, below 256, and how many there are: LUN 0 and so on.
    number: u8,
    count: u8,
    length: usize,
    medium: Medium,
}

enum Medium {
    Memory(RwLock<Vec<u8>>),
    /// What is written is there when the machine loses its power, so a WRITE takes its time.
    File(File),
}

impl Disk {
    /// The disk of this LUN, of so many, in RAM.
    pub fn in_memory(number: u8, count: u8, length: usize) -> Disk {
        Disk { number, count, length, medium: Medium::Memory(RwLock::new(vec![0; length])) }
    }

    /// On a file, which gets this length where it has no block yet.
    pub fn on_file(number: u8, count: u8, path: &Path, length: usize) -> io::Result<Disk> {
        let file = OpenOptions::new().read(true).write(true).create(true).truncate(false).open(path)?;
        if file.metadata()?.len() < BLOCK as u64 {
            file.set_len(length as u64)?;
        }
        let length = file.metadata()?.len() as usize / BLOCK * BLOCK;
        Ok(Disk { number, count, length, medium: Medium::File(file) })
    }

    pub fn is_in_memory(&self) -> bool {
        matches!(self.medium, Medium::Memory(_))
    }

    fn block_count(&self) -> u64 {
        (self.length / BLOCK) as u64
    }

    fn read(&self, range: Range<usize>) -> Result<Vec<u8>, Sense> {
        match &self.medium {
            Medium::Memory(bytes) => Ok(bytes.read().unwrap_or_else(PoisonError::into_inner)[range].to_vec()),
            Medium::File(file) => {
                let mut data = vec![0; range.len()];
                file.read_exact_at(&mut data, range.start as u64).map_err(|_| Sense::READ_ERROR)?;
                Ok(data)
            }
        }
    }

    fn write(&self, at: usize, data: &[u8]) -> Result<(), Sense> {
        match &self.medium {
            Medium::Memory(bytes) => {
                bytes.write().unwrap_or_else(PoisonError::into_inner)[at..at + data.len()].copy_from_slice(data);
                Ok(())
            }
            Medium::File(file) => file.write_all_at(data, at as u64).map_err(|_| Sense::WRITE_ERROR),
        }
    }

    /// What was written is on the medium once this has returned.
    fn flush(&self) -> Result<(), Sense> {
        match &self.medium {
            Medium::Memory(_) => Ok(()),
            Medium::File(file) => file.sync_data().map_err(|_| Sense::WRITE_ERROR),
        }
    }
}
