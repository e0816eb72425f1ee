//! What stands for the crate `kio`, whose traits are read by clauses: sinks, and one in memory.

use shim::alloc::Global;
use shim::vec::Vec;

/// A call on a sink failed.
#[derive(Clone, Copy, Debug, PartialEq, Eq)]
pub struct Failed;

/// A sink failed when so many bytes had gone out.
#[derive(Clone, Copy, Debug, PartialEq, Eq)]
pub struct WriteFault {
    pub written: usize,
}

/// What takes bytes.
pub trait Sink {
    /// Takes the first bytes of the piece: as many as it answers.
    fn write(&mut self, piece: &[u8]) -> Result<usize, Failed>;
}

/// Writes all the bytes.
pub fn write_all<K: Sink>(out: &mut K, bytes: &[u8]) -> Result<(), WriteFault> {
    let mut done = 0;
    while done < bytes.len() {
        match out.write(&bytes[done..]) {
            Ok(count) => done += count,
            Err(Failed) => return Err(WriteFault { written: done }),
        }
    }
    Ok(())
}

/// A sink in memory.
pub struct MemSink {
    most: usize,
    bytes: std::vec::Vec<u8>,
}

impl MemSink {
    /// A sink that takes at most so many bytes of a piece. It fails at no write, so there must be no numbers of those that fail.
    pub fn new(_: Global, most: usize, fails: Vec<u64>) -> MemSink {
        assert!(fails.is_empty());
        MemSink {
            most,
            bytes: std::vec::Vec::new(),
        }
    }

    /// What it took.
    pub fn bytes(&self) -> &[u8] {
        &self.bytes
    }
}

impl Sink for MemSink {
    fn write(&mut self, piece: &[u8]) -> Result<usize, Failed> {
        let count = piece.len().min(self.most);
        self.bytes.extend_from_slice(&piece[..count]);
        Ok(count)
    }
}
