//! Results to standard output and to files, of which none is overwritten without being asked.

use super::Failure;
use std::fs::{self, File, OpenOptions};
use std::io::{self, Write};
use std::path::{Path, PathBuf};

/// Writes a result to a file, or to standard output where none is named.
pub fn give(result: &[u8], file: Option<&Path>, force: bool) -> Result<(), Failure> {
    match file {
        None => to_standard_output(result),
        Some(file) => to_file(result, file, force),
    }
}

/// A reader that has seen enough and closed the pipe is no failure.
fn to_standard_output(result: &[u8]) -> Result<(), Failure> {
    let mut out = io::stdout().lock();
    match out.write_all(result).and_then(|()| out.flush()) {
        Err(error) if error.kind() != io::ErrorKind::BrokenPipe => {
            Err(Failure::refused(format!("standard output: {error}")))
        }
        _ => Ok(()),
    }
}

fn to_file(result: &[u8], file: &Path, force: bool) -> Result<(), Failure> {
    match fs::metadata(file) {
        Ok(there) if there.is_dir() => {
            Err(Failure::refused(format!("{}: is a folder", file.display())))
        }
        // A device is written to, and not replaced by a file.
        Ok(there) if force && !there.is_file() => {
            File::create(file).and_then(|mut device| device.write_all(result)).map_err(at(file))
        }
        _ => write_together(&[(place_of(file.into(), force), result)], force),
    }
}

/// Writes files to a folder, all of them or none. The folder is made if it is missing.
pub fn write_files(folder: &Path, files: &[(&str, &[u8])], force: bool) -> Result<(), Failure> {
    let made = match fs::create_dir(folder) {
        Ok(()) => true,
        Err(error) if error.kind() == io::ErrorKind::AlreadyExists && folder.is_dir() => false,
        Err(error) => return Err(at(folder)(error)),
    };
    let target = |&(name, octets): &(&str, _)| (place_of(folder.join(name), force), octets);
    let targets: Vec<(PathBuf, &[u8])> = files.iter().map(target).collect();
    let written = write_together(&targets, force);
    if written.is_err() && made {
        let _ = fs::remove_dir(folder);
    }
    written
}

/// Where a file is written: if a link may be overwritten, what it points to is, and it stays.
fn place_of(file: PathBuf, force: bool) -> PathBuf {
    match file.canonicalize() {
        Ok(place) if force => place,
        _ => file,
    }
}

fn at(path: &Path) -> impl Fn(io::Error) -> Failure + '_ {
    move |error| Failure::refused(format!("{}: {error}", path.display()))
}

// ---------------------------------------------------------------- all or none

/// A file under a name of its own until all of them are written; gone with the value if it was
/// not put in its place.
struct Draft<'a> {
    path: PathBuf,
    target: &'a Path,
}

impl Draft<'_> {
    fn of<'a>(index: usize, target: &'a Path, octets: &[u8]) -> io::Result<Draft<'a>> {
        let path = target.with_file_name(format!(".desk-{}-{index}", std::process::id()));
        let mut file = OpenOptions::new().write(true).create_new(true).open(&path)?;
        let draft = Draft { path, target };
        file.write_all(octets)?;
        Ok(draft)
    }

    fn put_in_place(&self) -> io::Result<()> {
        fs::rename(&self.path, self.target)
    }
}

impl Drop for Draft<'_> {
    fn drop(&mut self) {
        let _ = fs::remove_file(&self.path);
    }
}

fn write_together(targets: &[(PathBuf, &[u8])], force: bool) -> Result<(), Failure> {
    refuse_those_there(targets, force)?;
    let mut drafts = Vec::new();
    for (index, (target, octets)) in targets.iter().enumerate() {
        drafts.push(Draft::of(index, target, octets).map_err(at(target))?);
    }
    for (done, draft) in drafts.iter().enumerate() {
        if let Err(error) = draft.put_in_place() {
            if !force {
                // Those were not there before.
                drafts[..done].iter().for_each(|draft| drop(fs::remove_file(draft.target)));
            }
            return Err(at(draft.target)(error));
        }
    }
    Ok(())
}

/// A file that is there is in the way unless it may be overwritten, and a folder always.
fn refuse_those_there(targets: &[(PathBuf, &[u8])], force: bool) -> Result<(), Failure> {
    let in_the_way = |target: &&Path| match fs::symlink_metadata(target) {
        Ok(there) => !force || there.is_dir(),
        Err(_) => false,
    };
    let there: Vec<String> = targets
        .iter()
        .map(|(target, _)| target.as_path())
        .filter(in_the_way)
        .map(|target| target.display().to_string())
        .collect();
    if there.is_empty() {
        return Ok(());
    }
    let why = match force {
        true => "a folder; nothing is written",
        false => "there already; nothing is written (--force overwrites)",
    };
    Err(Failure::refused(format!("{}: {why}", there.join(", "))))
}

#[cfg(test)]
mod tests {
    use super::*;

    /// Of two files the second cannot be written: neither is there then, nor the folder.
    #[test]
    fn all_or_none() {
        let folder = std::env::temp_dir().join(format!("desk-all-or-none-{}", std::process::id()));
        let files: [(&str, &[u8]); 2] = [("group.dat", b"1"), ("nowhere/steps.dat", b"2")];
        assert!(write_files(&folder, &files, false).is_err());
        assert!(!folder.exists());
        fs::create_dir(&folder).expect("a folder");
        assert!(write_files(&folder, &files, true).is_err());
        let left = fs::read_dir(&folder).expect("the folder").count();
        fs::remove_dir_all(&folder).expect("the folder");
        assert_eq!(left, 0);
    }
}
