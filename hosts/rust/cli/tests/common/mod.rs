//! What the tests share: a folder of their own, the examples in it, the kit.

#![allow(dead_code)]

use std::env;
use std::fs;
use std::path::{Path, PathBuf};
use std::sync::atomic::{AtomicU32, Ordering};

/// The repository.
pub fn root() -> PathBuf {
    Path::new(env!("CARGO_MANIFEST_DIR")).join("../../..")
}

/// The conformance kit's files.
pub fn kit() -> PathBuf {
    root().join("conformance/readout")
}

/// A folder that is gone after the test.
pub struct Folder(pub PathBuf);

static COUNT: AtomicU32 = AtomicU32::new(0);

impl Folder {
    /// An empty folder.
    pub fn new() -> Folder {
        let count = COUNT.fetch_add(1, Ordering::Relaxed);
        let name = format!("sab-test-{}-{count}", std::process::id());
        let path = env::temp_dir().join(name);
        fs::create_dir_all(&path).expect("a folder for the test");
        Folder(path)
    }

    /// A folder with the repository's example files.
    pub fn with_examples() -> Folder {
        let folder = Folder::new();
        for entry in fs::read_dir(root().join("examples")).expect("examples") {
            let path = entry.expect("an example").path();
            let name = path.file_name().expect("a name");
            fs::copy(&path, folder.0.join(name)).expect("a copy");
        }
        folder
    }

    /// A file in it.
    pub fn file(&self, name: &str) -> PathBuf {
        self.0.join(name)
    }
}

impl Drop for Folder {
    fn drop(&mut self) {
        let _ = fs::remove_dir_all(&self.0);
    }
}
