//! The files that a pattern such as `../models/dialog*.aut` stands for.

use bithrowy_front::directives::matches;
use std::fs;
use std::path::{Path, PathBuf};

/// A pattern that stands for more than this is a slip: `*/../*/../*` multiplies.
pub const MOST: usize = 10_000;

/// The files below a folder that a pattern names, sorted; nothing where there are too many. `*` and `?` may stand in each
/// part between slashes.
pub fn files(folder: &Path, pattern: &str) -> Option<Vec<PathBuf>> {
    let start = if pattern.starts_with('/') { Path::new("/") } else { folder };
    let mut found = vec![start.to_path_buf()];
    for part in pattern.split('/').filter(|part| !["", "."].contains(part)) {
        found = found.iter().flat_map(|folder| step(folder, part)).take(MOST + 1).collect();
        if found.len() > MOST {
            return None;
        }
    }
    found.retain(|path| path.is_file());
    Some(found)
}

/// What one part of a pattern names in a folder.
fn step(folder: &Path, part: &str) -> Vec<PathBuf> {
    if part.contains(['*', '?']) {
        let names = names(folder).into_iter().filter(|name| matches(part, name));
        return names.map(|name| folder.join(name)).collect();
    }
    vec![folder.join(part)]
}

/// The names in a folder, sorted; none where it cannot be read. Names that are no text match no pattern. The folder of a
/// path that names none is this one.
fn names(folder: &Path) -> Vec<String> {
    let folder = if folder == Path::new("") { Path::new(".") } else { folder };
    let Ok(entries) = fs::read_dir(folder) else { return Vec::new() };
    let mut names: Vec<String> = entries.flatten().filter_map(|entry| entry.file_name().into_string().ok()).collect();
    names.sort();
    names
}
