//! Recordings: the one reader of IVF files, for the oracle, the tests and the benchmarks.
//! A file has a heading, whose length stands at 6 (two bytes), then for each frame its length (four bytes), a time (eight) and its bytes.
//! A file that is no recording, or that ends within a frame, is an error: nothing is left out in silence.

use std::path::{Path, PathBuf};

pub struct Recording {
    pub path: PathBuf,
    pub frames: Vec<Vec<u8>>,
}

fn number(file: &[u8], at: usize, bytes: usize) -> Option<usize> {
    let part = file.get(at..at.checked_add(bytes)?)?;
    Some(part.iter().rev().fold(0, |n, b| n * 256 + *b as usize))
}

/// The frames of one file.
pub fn frames(file: &[u8]) -> Result<Vec<Vec<u8>>, String> {
    if !file.starts_with(b"DKIF") {
        return Err("no recording: it does not begin with DKIF".into());
    }
    let mut at = number(file, 6, 2).filter(|n| (32..=file.len()).contains(n)).ok_or("a heading that is cut short")?;
    let mut found = Vec::new();
    while at < file.len() {
        let length = number(file, at, 4).ok_or("a frame's heading that is cut short")?;
        let bytes = file.get(at + 12..at + 12 + length).ok_or("a frame that is cut short")?;
        found.push(bytes.to_vec());
        at += 12 + length;
    }
    Ok(found)
}

/// One file.
pub fn read(path: &Path) -> Result<Recording, String> {
    let told = |why: String| format!("{}: {why}", path.display());
    let file = std::fs::read(path).map_err(|why| told(why.to_string()))?;
    Ok(Recording { path: path.to_path_buf(), frames: frames(&file).map_err(told)? })
}

/// All recordings of a folder, in the order of their names; that there is none is an error.
pub fn folder(folder: &Path) -> Result<Vec<Recording>, String> {
    let told = |why: String| format!("{}: {why}", folder.display());
    let mut paths: Vec<PathBuf> = std::fs::read_dir(folder)
        .map_err(|why| told(why.to_string()))?
        .filter_map(|entry| entry.ok().map(|entry| entry.path()))
        .filter(|path| path.extension().is_some_and(|end| end == "ivf"))
        .collect();
    paths.sort();
    if paths.is_empty() {
        return Err(told("no recordings".into()));
    }
    paths.iter().map(|path| read(path)).collect()
}
