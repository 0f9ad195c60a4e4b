//! The scripts that the paths name.

use std::fs;
use std::io;
use std::path::{Path, PathBuf};

/// A script, or a path that could not be read.
pub type Found = Result<PathBuf, Unread>;

#[derive(Debug)]
pub struct Unread {
    pub path: PathBuf,
    pub why: String,
}

impl Unread {
    pub fn new(path: &Path, why: impl ToString) -> Self {
        let (path, why) = (path.to_path_buf(), why.to_string());
        Self { path, why }
    }
}

/// Every path in turn: a file is a script, and a folder has scripts below it.
pub fn scripts(paths: &[PathBuf]) -> Vec<Found> {
    paths.iter().flat_map(|path| below(path)).collect()
}

fn below(path: &Path) -> Vec<Found> {
    if !path.is_dir() {
        return vec![Ok(path.to_path_buf())];
    }
    let mut found = Vec::new();
    walk(path, &mut found);
    if found.is_empty() {
        found.push(Err(Unread::new(path, "no *.rhai is below this folder")));
    }
    found.sort_by(|a, b| at(a).cmp(at(b)));
    found
}

fn at(found: &Found) -> &Path {
    match found {
        Ok(path) => path,
        Err(unread) => &unread.path,
    }
}

/// Adds what is below a folder. A link to a folder is not followed: it could lead back.
fn walk(folder: &Path, found: &mut Vec<Found>) {
    let entries = match fs::read_dir(folder).and_then(Iterator::collect::<io::Result<Vec<_>>>) {
        Ok(entries) => entries,
        Err(error) => return found.push(Err(Unread::new(folder, error))),
    };
    for entry in entries {
        let path = entry.path();
        let is_link = entry.file_type().map_or(false, |kind| kind.is_symlink());
        match path.is_dir() {
            true if !is_link => walk(&path, found),
            false if path.extension().map_or(false, |name| name == "rhai") => found.push(Ok(path)),
            _ => {}
        }
    }
}
