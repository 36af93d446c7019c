//! Stand-in for sfa, the container around a blob file: it passes bytes through and writes nothing of its own.
//! So a file begins with its first frame, and what follows META is whatever the metadata block writes.

use std::io::{Error, ErrorKind, Result, Write};
use std::path::Path;

pub struct Checksum(u128);

impl Checksum {
    pub fn into_u128(self) -> u128 {
        self.0
    }
}

pub struct Writer<W: Write>(W);

impl<W: Write> Writer<W> {
    pub fn from_writer(inner: W) -> Self {
        Self(inner)
    }

    /// Begins a section. The real one remembers it for the table of contents behind the sections.
    pub fn start(&mut self, _name: &str) -> Result<()> {
        Ok(())
    }

    pub fn into_inner(mut self) -> Result<W> {
        self.0.flush()?;
        Ok(self.0)
    }
}

impl<W: Write> Write for Writer<W> {
    fn write(&mut self, bytes: &[u8]) -> Result<usize> {
        self.0.write(bytes)
    }

    fn flush(&mut self) -> Result<()> {
        self.0.flush()
    }
}

/// Reading a container back is not asked for: there is none to open.
pub struct Reader(Toc);

pub struct Toc;

pub struct Section;

impl Reader {
    pub fn new(_path: impl AsRef<Path>) -> Result<Self> {
        Err(Error::new(ErrorKind::Unsupported, "no container"))
    }

    pub fn toc(&self) -> &Toc {
        &self.0
    }
}

impl Toc {
    pub fn section(&self, _name: &[u8]) -> Option<Section> {
        None
    }
}

impl Section {
    pub fn pos(&self) -> u64 {
        0
    }

    pub fn len(&self) -> u64 {
        0
    }

    pub fn is_empty(&self) -> bool {
        true
    }
}
