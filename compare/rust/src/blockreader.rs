//! Stands in for blockreader.rs, which is not given: it passes everything on at once, where upstream's keeps a block.
use std::fs::{File, OpenOptions};
use std::io::{Read, Result, Seek, SeekFrom, Write};
use std::path::Path;

pub trait Backend: Read + Write + Seek {}
impl<T: Read + Write + Seek> Backend for T {}

pub struct BlockReader<R: Backend> {
    under: R,
    writable: bool,
}

impl BlockReader<File> {
    pub fn open(path: &Path, writable: bool) -> Result<Self> {
        Ok(Self::over(OpenOptions::new().read(true).write(writable).open(path)?, writable))
    }
}

impl<R: Backend> BlockReader<R> {
    pub fn over(under: R, writable: bool) -> Self {
        Self { under, writable }
    }
    pub fn write_enabled(&self) -> bool {
        self.writable
    }
}

impl<R: Backend> Read for BlockReader<R> {
    fn read(&mut self, bytes: &mut [u8]) -> Result<usize> {
        self.under.read(bytes)
    }
}
impl<R: Backend> Write for BlockReader<R> {
    fn write(&mut self, bytes: &[u8]) -> Result<usize> {
        self.under.write(bytes)
    }
    fn flush(&mut self) -> Result<()> {
        self.under.flush()
    }
}
impl<R: Backend> Seek for BlockReader<R> {
    fn seek(&mut self, to: SeekFrom) -> Result<u64> {
        self.under.seek(to)
    }
}
