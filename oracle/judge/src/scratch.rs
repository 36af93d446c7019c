//! Files of the judge's own, in memory where the system has a folder for that.

use std::path::{Path, PathBuf};
use std::{fs, io};
use tempfile::TempDir;

pub struct Scratch(TempDir);

impl Scratch {
    pub fn new() -> io::Result<Self> {
        let memory = Path::new("/dev/shm");
        let made = if memory.is_dir() { tempfile::tempdir_in(memory) } else { tempfile::tempdir() };
        Ok(Self(made?))
    }

    pub fn path(&self) -> &Path {
        self.0.path()
    }

    /// A file with these bytes; one of that name before it is gone.
    pub fn file(&self, name: &str, bytes: &[u8]) -> PathBuf {
        let path = self.path().join(name);
        fs::write(&path, bytes).expect("a scratch file");
        path
    }

    /// An empty folder; one of that name before it is gone.
    pub fn folder(&self, name: &str) -> PathBuf {
        let path = self.path().join(name);
        if path.exists() {
            fs::remove_dir_all(&path).expect("a scratch folder's end");
        }
        fs::create_dir(&path).expect("a scratch folder");
        path
    }
}
