//! A file that carries a day over an upgrade, with its length and checksum beside it.
//!
//! FILE is first written to FILE.new, and its checksum to FILE.sha256.new. Both are synced,
//! then each is renamed, FILE first, and their folder is synced. So a crash at any moment
//! leaves the old FILE or the new one, whole; a FILE.new that it left is written over by the
//! next writing. FILE.sha256 is
//!
//! ```text
//! # 316 bytes
//! 2c26b46b68ffc68ff99b453c1d30413413422d706483bfa0f98a5e886266e7ae  noon.set
//! ```
//!
//! which `sha256sum -c` checks too: it passes the first line over. What `sha256sum` writes by
//! itself, without a first line, is taken as well. `examples/c/checked_file.h` is the same
//! for hosts in C.

use crate::sha256::sha256;
use std::ffi::OsStr;
use std::fs::{self, File};
use std::io::{self, Write};
use std::path::{Path, PathBuf};

/// The file beside a file that tells its length and checksum.
pub fn checksum_file(file: &Path) -> PathBuf {
    with_ending(file, ".sha256")
}

fn with_ending(file: &Path, ending: &str) -> PathBuf {
    let mut name = file.as_os_str().to_os_string();
    name.push(ending);
    PathBuf::from(name)
}

/// Writes a file and its checksum; where that fails, the old ones are as they were.
pub fn write_checked(file: &Path, bytes: &[u8]) -> Result<(), String> {
    let other = |found: fs::Metadata| !found.is_file();
    if fs::symlink_metadata(file).is_ok_and(other) {
        let what = "was not written: it is there, and no regular file";
        return Err(format!("{} {what}", file.display()));
    }
    let Some(name) = file.file_name() else {
        return Err(format!("{:?} is no name of a file", file.display()));
    };
    let sums = checksum_file(file);
    let [new_file, new_sums] = [file, &sums].map(|file| with_ending(file, ".new"));
    write_synced(&new_file, bytes)?;
    write_synced(&new_sums, &checksum_lines(name, bytes))?;
    put_in_place(&new_file, file)?;
    put_in_place(&new_sums, &sums)
}

fn checksum_lines(name: &OsStr, bytes: &[u8]) -> Vec<u8> {
    let mut lines = format!("# {} bytes\n{}  ", bytes.len(), sha256(bytes)).into_bytes();
    lines.extend(name.as_encoded_bytes());
    lines.push(b'\n');
    lines
}

/// Writes a file and waits until its bytes are kept; one that was begun and failed is
/// removed.
fn write_synced(file: &Path, bytes: &[u8]) -> Result<(), String> {
    let mut opened = File::create(file).map_err(|error| not_written(file, &error))?;
    let written = opened.write_all(bytes).and_then(|()| opened.sync_all());
    written.map_err(|error| {
        let _ = fs::remove_file(file);
        not_written(file, &error)
    })
}

/// Puts a new file in the old one's place, and waits until that is kept.
fn put_in_place(written: &Path, file: &Path) -> Result<(), String> {
    let folder = match file.parent() {
        Some(folder) if !folder.as_os_str().is_empty() => folder,
        _ => Path::new("."),
    };
    fs::rename(written, file)
        .and_then(|()| File::open(folder)?.sync_all())
        .map_err(|error| not_written(file, &error))
}

fn not_written(file: &Path, error: &io::Error) -> String {
    format!("{} was not written: {error}", file.display())
}

/// Asks the file beside a file whether these are the bytes that were written to it; tells
/// what is wrong.
pub fn verify(file: &Path, bytes: &[u8]) -> Result<(), String> {
    let sums = checksum_file(file);
    let what = match fs::read(&sums) {
        Ok(lines) => match difference(&lines, bytes) {
            None => return Ok(()),
            Some(what) => what,
        },
        Err(error) if error.kind() == io::ErrorKind::NotFound => "that file is missing".to_string(),
        Err(error) => error.to_string(),
    };
    let told = format!("it is not what {} tells: {what}", sums.display());
    let left = with_ending(&sums, ".new");
    let tells_it = |lines: Vec<u8>| difference(&lines, bytes).is_none();
    Err(match fs::read(&left).is_ok_and(tells_it) {
        true => format!(
            "{told}; {} tells it: the writing was cut off before its last step, to rename that \
             file to {}",
            left.display(),
            sums.display()
        ),
        false => told,
    })
}

/// What of these bytes is not as the lines tell.
fn difference(lines: &[u8], bytes: &[u8]) -> Option<String> {
    let lines: Vec<&[u8]> = lines.split(|byte| *byte == b'\n').collect();
    let (length, sum) = match lines[0].strip_prefix(b"# ") {
        Some(length) => (Some(length), lines.get(1).copied().unwrap_or_default()),
        None => (None, lines[0]),
    };
    let is_hex = |digits: &&[u8]| digits.iter().all(u8::is_ascii_hexdigit);
    let Some(digits) = sum.get(..64).filter(is_hex) else {
        return Some("no checksum stands there".to_string());
    };
    let own = format!("{} bytes", bytes.len());
    if let Some(told) = length.filter(|told| *told != own.as_bytes()) {
        let told = String::from_utf8_lossy(told);
        return Some(format!("it has {own}, and {told} are told"));
    }
    let differs = sha256(bytes).as_bytes() != digits;
    differs.then(|| "its checksum is another one".to_string())
}

#[cfg(test)]
mod tests {
    use super::*;

    /// A folder that is gone when the test ends.
    struct Folder(PathBuf);

    impl Folder {
        fn new(name: &str) -> Self {
            let folder =
                std::env::temp_dir().join(format!("checked-{}-{name}", std::process::id()));
            fs::create_dir_all(&folder).unwrap();
            Folder(folder)
        }

        fn file(&self) -> PathBuf {
            self.0.join("noon.set")
        }

        /// The names in it, in order.
        fn names(&self) -> Vec<String> {
            let found = fs::read_dir(&self.0).unwrap();
            let names = found.map(|entry| entry.unwrap().file_name().into_string().unwrap());
            let mut names: Vec<String> = names.collect();
            names.sort();
            names
        }
    }

    impl Drop for Folder {
        fn drop(&mut self) {
            let _ = fs::remove_dir_all(&self.0);
        }
    }

    #[test]
    fn what_is_written_is_told_beside_it_and_verified() {
        let folder = Folder::new("written");
        let file = folder.file();
        for bytes in [&b"abc"[..], b"", &[7; 5_900]] {
            write_checked(&file, bytes).unwrap();
            assert_eq!(fs::read(&file).unwrap(), bytes);
            assert_eq!(verify(&file, bytes), Ok(()));
        }
        write_checked(&file, b"abc").unwrap();
        let lines = "# 3 bytes\n\
            ba7816bf8f01cfea414140de5dae2223b00361a396177a9cb410ff61f20015ad  noon.set\n";
        assert_eq!(fs::read(checksum_file(&file)).unwrap(), lines.as_bytes());
        assert_eq!(folder.names(), ["noon.set", "noon.set.sha256"]);
    }

    #[test]
    fn each_difference_is_told() {
        let folder = Folder::new("differs");
        let file = folder.file();
        let told = |bytes: &[u8]| verify(&file, bytes).unwrap_err();
        assert!(told(b"abc").ends_with(".sha256 tells: that file is missing"));
        write_checked(&file, b"abc").unwrap();
        assert!(told(b"ab").ends_with("it has 2 bytes, and 3 bytes are told"));
        assert!(told(b"abd").ends_with("its checksum is another one"));
        for lines in [
            "",
            "# 3 bytes",
            "# 3 bytes\n",
            "# 3 bytes\nba78\n",
            "noon.set\n",
        ] {
            fs::write(checksum_file(&file), lines).unwrap();
            let what = told(b"abc");
            assert!(
                what.ends_with("no checksum stands there"),
                "{lines:?}: {what}"
            );
        }
    }

    #[test]
    fn the_lines_of_sha256sum_alone_are_taken() {
        let folder = Folder::new("alone");
        let file = folder.file();
        let line = format!("{}  noon.set\n", sha256(b"abc"));
        fs::write(checksum_file(&file), line).unwrap();
        assert_eq!(verify(&file, b"abc"), Ok(()));
        assert!(verify(&file, b"abd").is_err());
    }

    /// Each state that a crash leaves: the old file, until the new one is in its place.
    #[test]
    fn a_writing_that_was_cut_off_leaves_the_old_file_or_the_new_one() {
        let folder = Folder::new("cut");
        let file = folder.file();
        write_checked(&file, b"old").unwrap();
        let old_sums = fs::read(checksum_file(&file)).unwrap();
        // Within the new file, and before it is in place.
        for left in [&b"n"[..], b"new"] {
            fs::write(with_ending(&file, ".new"), left).unwrap();
            assert_eq!(verify(&file, &fs::read(&file).unwrap()), Ok(()));
        }
        write_checked(&file, b"new").unwrap();
        assert_eq!(folder.names(), ["noon.set", "noon.set.sha256"]);
        // Between the two renamings.
        let sums = checksum_file(&file);
        let left = with_ending(&sums, ".new");
        fs::rename(&sums, &left).unwrap();
        fs::write(&sums, &old_sums).unwrap();
        let told = verify(&file, b"new").unwrap_err();
        let step = format!("to rename that file to {}", sums.display());
        assert!(told.ends_with(&step), "{told}");
        fs::rename(&left, &sums).unwrap();
        assert_eq!(verify(&file, b"new"), Ok(()));
    }

    #[test]
    fn what_is_no_file_is_not_written_over() {
        let folder = Folder::new("other");
        let told = write_checked(&folder.0, b"new").unwrap_err();
        assert!(told.ends_with("it is there, and no regular file"), "{told}");
        let link = folder.0.join("link");
        std::os::unix::fs::symlink("/dev/null", &link).unwrap();
        assert!(write_checked(&link, b"new").is_err());
        let inside = folder.0.join("missing/noon.set");
        let told = write_checked(&inside, b"new").unwrap_err();
        assert!(told.contains("noon.set.new was not written: "), "{told}");
        assert_eq!(folder.names(), ["link"]);
    }
}
