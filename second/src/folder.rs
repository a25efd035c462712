//! Files of random cases, written into a folder that is there already.

use std::fs;
use std::path::Path;

/// Writes a file into a folder; complains by the file's name.
pub fn write_file(folder: &Path, name: &str, bytes: &[u8]) -> Result<(), String> {
    let path = folder.join(name);
    fs::write(&path, bytes).map_err(|error| format!("{}: {error}", path.display()))
}

/// Reads a file; complains by its name.
pub fn read_file(name: &str) -> Result<Vec<u8>, String> {
    fs::read(name).map_err(|error| format!("{name}: {error}"))
}
