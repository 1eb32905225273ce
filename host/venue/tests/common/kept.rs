//! Files of tests.

/// A file that is gone when the test ends.
pub struct Kept(pub std::path::PathBuf);

impl Kept {
    pub fn new(name: &str, contents: impl AsRef<[u8]>) -> Self {
        let file = format!("venue-{}-{name}", std::process::id());
        let path = std::env::temp_dir().join(file);
        std::fs::write(&path, contents).unwrap();
        Kept(path)
    }

    pub fn path(&self) -> &str {
        self.0.to_str().unwrap()
    }
}

impl Drop for Kept {
    fn drop(&mut self) {
        let _ = std::fs::remove_file(&self.0);
    }
}
