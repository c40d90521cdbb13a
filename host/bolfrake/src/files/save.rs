//! Writes a file: the whole of it, or nothing is changed.

use std::fs::{self, File, OpenOptions, Permissions};
use std::io::{self, Write};
use std::path::{Path, PathBuf};
use std::process;

use crate::output::show;
use crate::words::failure::Failure;

/// Where a file is written to, and the permissions of the one that stands there.
struct Target {
    path: PathBuf,
    permissions: Option<Permissions>,
}

/// Writes the bytes to a file of that name. One that exists is refused, unless it is to be written over.
///
/// They are written to a new file in the same folder, which takes the name when it is complete. So whoever reads the name finds the old file or the new one,
/// and where anything fails the old one stays as it was.
pub fn save(path: &Path, bytes: &[u8], over: bool) -> Result<(), Failure> {
    let name = show::path(path);
    let target = target(path, &name, over)?;
    let written = written(&target, bytes, over);
    written.map_err(|error| match error.kind() {
        // Somebody else has written it just now.
        io::ErrorKind::AlreadyExists => exists(&name),
        _ => unwritten(&name, &error),
    })
}

fn written(target: &Target, bytes: &[u8], over: bool) -> io::Result<()> {
    let folder = folder_of(&target.path);
    let new = Temporary::new(folder, bytes, target.permissions.clone())?;
    if over {
        fs::rename(&new.path, &target.path)?;
    } else {
        new.take(&target.path)?;
    }
    // The name is on the disk once the folder is; where a folder cannot be synced, the file is there all the same.
    let _ = File::open(folder).and_then(|folder| folder.sync_all());
    Ok(())
}

/// What the name stands for, or why nothing is written there.
fn target(path: &Path, name: &str, over: bool) -> Result<Target, Failure> {
    if path.is_dir() {
        return Err(stopped(name, "is a folder: name a file in it"));
    }
    if path.file_name().is_none() {
        return Err(Failure::Stopped(format!(
            "`{name}` names no file: name one"
        )));
    }
    if fs::symlink_metadata(path).is_err() {
        return Ok(Target {
            path: path.to_path_buf(),
            permissions: None,
        });
    }
    if !over {
        return Err(exists(name));
    }
    standing(path)
        .map_err(|error| unwritten(name, &error))?
        .ok_or_else(|| {
            // To take the place of a device or a pipe is never meant.
            stopped(
                name,
                "is no plain file: name another, or - for standard output",
            )
        })
}

/// The file that is to be written over, if it is a plain one. A link is followed: it stays, and leads to the new file.
fn standing(path: &Path) -> io::Result<Option<Target>> {
    let path = fs::canonicalize(path)?;
    let data = fs::metadata(&path)?;
    Ok(data.is_file().then(|| Target {
        path,
        permissions: Some(data.permissions()),
    }))
}

fn folder_of(path: &Path) -> &Path {
    match path.parent() {
        Some(folder) if folder != Path::new("") => folder,
        _ => Path::new("."),
    }
}

fn exists(name: &str) -> Failure {
    stopped(
        name,
        "exists: name another file, or say --force to write over it",
    )
}

fn unwritten(name: &str, error: &io::Error) -> Failure {
    let todo = match error.kind() {
        io::ErrorKind::NotFound => "make its folder first, or name another",
        io::ErrorKind::PermissionDenied => "ask for leave to write there, or name another folder",
        _ => "make room there, or name another folder",
    };
    stopped(name, &format!("cannot be written ({error}): {todo}"))
}

fn stopped(name: &str, words: &str) -> Failure {
    Failure::Stopped(format!("{name} {words}"))
}

/// A new file under a name of its own. That name is removed in the end, whatever happens.
struct Temporary {
    path: PathBuf,
}

impl Temporary {
    /// The file with these bytes, on the disk.
    fn new(folder: &Path, bytes: &[u8], permissions: Option<Permissions>) -> io::Result<Temporary> {
        let (new, mut file) = Temporary::create(folder)?;
        file.write_all(bytes)?;
        if let Some(permissions) = permissions {
            file.set_permissions(permissions)?;
        }
        file.sync_all()?;
        Ok(new)
    }

    /// An empty file under the first name that is free.
    fn create(folder: &Path) -> io::Result<(Temporary, File)> {
        let mut number: u32 = 0;
        loop {
            let path = folder.join(format!(".bolfrake-{}-{number}.tmp", process::id()));
            match create_new(&path) {
                Err(error) if error.kind() == io::ErrorKind::AlreadyExists => number += 1,
                created => return created.map(|file| (Temporary { path }, file)),
            }
        }
    }

    /// Gives the file a second name, which fails where that is taken, also by somebody else just now.
    fn take(&self, name: &Path) -> io::Result<()> {
        match fs::hard_link(&self.path, name) {
            Err(error) if error.kind() != io::ErrorKind::AlreadyExists => self.take_in_steps(name),
            answer => answer,
        }
    }

    /// The same where a file cannot have two names: an empty one takes the name first, which fails in the same way, and the file then its place.
    fn take_in_steps(&self, name: &Path) -> io::Result<()> {
        create_new(name)?;
        fs::rename(&self.path, name).map_err(|error| {
            let _ = fs::remove_file(name);
            error
        })
    }
}

impl Drop for Temporary {
    fn drop(&mut self) {
        // Where the file was renamed there is no such name any more.
        let _ = fs::remove_file(&self.path);
    }
}

fn create_new(path: &Path) -> io::Result<File> {
    OpenOptions::new().write(true).create_new(true).open(path)
}

#[cfg(test)]
mod tests {
    use std::os::unix::fs::{symlink, PermissionsExt};

    use super::*;

    /// An empty folder of one test, removed in the end.
    struct Folder(PathBuf);

    impl Folder {
        fn new(name: &str) -> Folder {
            let own = format!("bolfrake-save-{}-{name}", process::id());
            let path = std::env::temp_dir().join(own);
            let _ = fs::remove_dir_all(&path);
            fs::create_dir_all(&path).unwrap();
            Folder(path)
        }

        fn at(&self, name: &str) -> PathBuf {
            self.0.join(name)
        }

        /// The names in it.
        fn names(&self) -> Vec<String> {
            let entries = fs::read_dir(&self.0).unwrap();
            let name = |entry: io::Result<fs::DirEntry>| entry.unwrap().file_name();
            let mut names: Vec<String> = entries
                .map(|entry| name(entry).into_string().unwrap())
                .collect();
            names.sort();
            names
        }
    }

    impl Drop for Folder {
        fn drop(&mut self) {
            let _ = fs::remove_dir_all(&self.0);
        }
    }

    fn mode(path: &Path) -> u32 {
        fs::metadata(path).unwrap().permissions().mode() & 0o777
    }

    #[test]
    fn a_new_file() {
        let folder = Folder::new("new");
        for over in [false, true] {
            let path = folder.at(&format!("a-{over}"));
            save(&path, b"a\xff\n", over).unwrap();
            assert_eq!(fs::read(&path).unwrap(), b"a\xff\n");
        }
        save(&folder.at("empty"), b"", false).unwrap();
        assert_eq!(folder.names(), ["a-false", "a-true", "empty"]);
        // As any file that is made here.
        fs::write(folder.at("other"), b"").unwrap();
        assert_eq!(mode(&folder.at("a-false")), mode(&folder.at("other")));
    }

    #[test]
    fn a_file_that_exists() {
        let folder = Folder::new("exists");
        let path = folder.at("a");
        fs::write(&path, b"old").unwrap();
        fs::set_permissions(&path, Permissions::from_mode(0o640)).unwrap();
        let failure = save(&path, b"new", false).unwrap_err();
        let words = "/a exists: name another file, or say --force to write over it";
        assert!(failure.to_string().ends_with(words), "{failure}");
        assert_eq!(failure.status(), 2);
        assert_eq!(fs::read(&path).unwrap(), b"old");
        save(&path, b"new", true).unwrap();
        assert_eq!(
            (fs::read(&path).unwrap(), mode(&path)),
            (b"new".to_vec(), 0o640)
        );
        assert_eq!(folder.names(), ["a"]);
    }

    #[test]
    fn links_are_followed() {
        let folder = Folder::new("links");
        fs::write(folder.at("a"), b"old").unwrap();
        symlink("a", folder.at("link")).unwrap();
        symlink("nowhere", folder.at("lost")).unwrap();
        assert!(save(&folder.at("link"), b"new", false).is_err());
        // A link that leads nowhere is there too.
        assert!(save(&folder.at("lost"), b"new", false).is_err());
        assert!(save(&folder.at("lost"), b"new", true).is_err());
        save(&folder.at("link"), b"new", true).unwrap();
        assert_eq!(fs::read(folder.at("a")).unwrap(), b"new");
        let link = fs::symlink_metadata(folder.at("link")).unwrap();
        assert!(link.file_type().is_symlink());
        assert_eq!(folder.names(), ["a", "link", "lost"]);
    }

    #[test]
    fn what_is_no_plain_file() {
        let folder = Folder::new("unplain");
        for (path, words) in [
            (folder.0.as_path(), "is a folder: name a file in it"),
            (Path::new(".."), ".. is a folder: name a file in it"),
            (Path::new(""), "`` names no file: name one"),
            (
                Path::new("/dev/null"),
                "/dev/null is no plain file: name another, or - for standard output",
            ),
        ] {
            let failure = save(path, b"new", true).unwrap_err();
            assert!(failure.to_string().ends_with(words), "{failure}");
            assert_eq!(failure.status(), 2);
        }
    }

    #[test]
    fn where_nothing_can_be_written() {
        let folder = Folder::new("nowhere");
        fs::write(folder.at("a"), b"").unwrap();
        let inside = folder.at("none/b");
        let failure = save(&inside, b"new", false).unwrap_err().to_string();
        assert!(failure.contains("/none/b cannot be written ("), "{failure}");
        assert!(failure.ends_with("): make its folder first, or name another"));
        assert!(save(&folder.at("a/b"), b"new", false).is_err());
        assert!(save(&folder.at("b/"), b"new", false).is_err());
        let long = "x".repeat(300);
        assert!(save(&folder.at(&long), b"new", false).is_err());
        assert_eq!(folder.names(), ["a"]);
    }

    #[test]
    fn where_files_have_one_name_alone() {
        let folder = Folder::new("steps");
        let new = Temporary::new(&folder.0, b"new", None).unwrap();
        new.take_in_steps(&folder.at("a")).unwrap();
        drop(new);
        assert_eq!(fs::read(folder.at("a")).unwrap(), b"new");
        let other = Temporary::new(&folder.0, b"other", None).unwrap();
        let error = other.take_in_steps(&folder.at("a")).unwrap_err();
        assert_eq!(error.kind(), io::ErrorKind::AlreadyExists);
        // The file is gone in between: the name is free again.
        fs::remove_file(&other.path).unwrap();
        assert!(other.take_in_steps(&folder.at("b")).is_err());
        drop(other);
        assert_eq!(folder.names(), ["a"]);
    }

    #[test]
    fn two_at_once_have_names_of_their_own() {
        let folder = Folder::new("two");
        let one = Temporary::new(&folder.0, b"1", None).unwrap();
        let two = Temporary::new(&folder.0, b"2", None).unwrap();
        assert_ne!(one.path, two.path);
        one.take(&folder.at("a")).unwrap();
        let error = two.take(&folder.at("a")).unwrap_err();
        assert_eq!(error.kind(), io::ErrorKind::AlreadyExists);
        drop((one, two));
        assert_eq!(fs::read(folder.at("a")).unwrap(), b"1");
        assert_eq!(folder.names(), ["a"]);
    }
}
