//! The folder of the sockets, and the sockets in it. Whoever reaches a socket drives its function, so the folder is its owner's alone.

use std::fmt;
use std::fs::{self, DirBuilder, Permissions};
use std::io;
use std::os::unix::fs::{DirBuilderExt, FileTypeExt, MetadataExt, PermissionsExt};
use std::os::unix::net::{UnixDatagram, UnixListener};
use std::path::{Path, PathBuf};

/// Why a folder or a socket can't be used.
#[derive(Debug)]
pub struct Unusable {
    path: PathBuf,
    why: String,
}

impl Unusable {
    fn new(path: &Path, why: impl fmt::Display) -> Unusable {
        Unusable {
            path: path.to_owned(),
            why: why.to_string(),
        }
    }
}

impl fmt::Display for Unusable {
    fn fmt(&self, f: &mut fmt::Formatter<'_>) -> fmt::Result {
        write!(f, "{}: {}", self.path.display(), self.why)
    }
}

impl std::error::Error for Unusable {}

/// A socket in the file system, which goes with this value.
#[derive(Debug)]
pub struct Place {
    path: PathBuf,
}

impl Drop for Place {
    fn drop(&mut self) {
        // (whoever removed it before did the same)
        let _ = fs::remove_file(&self.path);
    }
}

impl Place {
    /// Where it is.
    #[must_use]
    pub fn path(&self) -> &Path {
        &self.path
    }
}

/// Makes the folder with mode 0700, or takes one that is there, where nobody but its owner may enter it.
///
/// # Errors
/// The folder, and why it can't be used.
pub fn open_directory(path: &Path) -> Result<(), Unusable> {
    match DirBuilder::new().mode(0o700).create(path) {
        Ok(()) => return Ok(()),
        Err(error) if error.kind() == io::ErrorKind::AlreadyExists => {}
        Err(error) => return Err(Unusable::new(path, error)),
    }
    let told = fs::metadata(path).map_err(|error| Unusable::new(path, error))?;
    if !told.is_dir() {
        return Err(Unusable::new(path, "is no folder"));
    }
    let mode = told.mode() & 0o777;
    if mode & 0o077 != 0 {
        let why = format!("others may enter it (mode {mode:04o}): it wants mode 0700");
        return Err(Unusable::new(path, why));
    }
    Ok(())
}

/// Listens at a path, which its owner alone may connect to. A socket that nobody has open any more is replaced.
///
/// # Errors
/// The path, and why there can't be a socket.
pub fn listen(path: &Path) -> Result<(UnixListener, Place), Unusable> {
    make_free(path)?;
    let listener = UnixListener::bind(path).map_err(|error| Unusable::new(path, error))?;
    let place = own(path)?;
    match listener.set_nonblocking(true) {
        Ok(()) => Ok((listener, place)),
        Err(error) => Err(Unusable::new(path, error)),
    }
}

/// A datagram socket at a path, likewise.
///
/// # Errors
/// The path, and why there can't be a socket.
pub fn bind_datagram(path: &Path) -> Result<(UnixDatagram, Place), Unusable> {
    make_free(path)?;
    let socket = UnixDatagram::bind(path).map_err(|error| Unusable::new(path, error))?;
    let place = own(path)?;
    match socket.set_nonblocking(true) {
        Ok(()) => Ok((socket, place)),
        Err(error) => Err(Unusable::new(path, error)),
    }
}

// The socket that was just bound is its owner's alone.
fn own(path: &Path) -> Result<Place, Unusable> {
    let place = Place {
        path: path.to_owned(),
    };
    match fs::set_permissions(path, Permissions::from_mode(0o600)) {
        Ok(()) => Ok(place),
        Err(error) => Err(Unusable::new(path, error)),
    }
}

// Nothing stands at the path, or a socket that nobody has open, which is removed.
fn make_free(path: &Path) -> Result<(), Unusable> {
    let told = match fs::symlink_metadata(path) {
        Ok(told) => told,
        Err(error) if error.kind() == io::ErrorKind::NotFound => return Ok(()),
        Err(error) => return Err(Unusable::new(path, error)),
    };
    if !told.file_type().is_socket() {
        return Err(Unusable::new(path, "stands there, and is no socket"));
    }
    if is_open(path) {
        return Err(Unusable::new(path, "another program has this socket open"));
    }
    fs::remove_file(path).map_err(|error| Unusable::new(path, error))
}

// Whether a program has the socket at a path open. A datagram socket that asks for it never waits, and connects to no listener: where one
// is there the types differ, and where nobody is there the connection is refused.
fn is_open(path: &Path) -> bool {
    let asked = UnixDatagram::unbound().and_then(|socket| socket.connect(path));
    !matches!(asked, Err(error) if error.kind() == io::ErrorKind::ConnectionRefused)
}

#[cfg(test)]
mod tests {
    use super::*;

    // A folder of a test's own, which is gone afterwards.
    struct Folder(PathBuf);

    impl Folder {
        fn new(name: &str) -> Folder {
            let path = std::env::temp_dir().join(format!("vfdev-{name}-{}", std::process::id()));
            fs::create_dir(&path).expect("a folder");
            Folder(path)
        }
    }

    impl Drop for Folder {
        fn drop(&mut self) {
            let _ = fs::remove_dir_all(&self.0);
        }
    }

    fn said<T>(result: Result<T, Unusable>) -> String {
        result
            .err()
            .map_or_else(String::new, |error| error.to_string())
    }

    #[test]
    fn a_folder_is_its_owners_alone() {
        let folder = Folder::new("folder");
        let (made, open, file) = (folder.0.join("a"), folder.0.join("b"), folder.0.join("c"));
        open_directory(&made).expect("a folder");
        assert_eq!(
            fs::metadata(&made).map(|told| told.mode() & 0o777).ok(),
            Some(0o700)
        );
        open_directory(&made).expect("the same again");
        fs::create_dir(&open).expect("a folder");
        fs::set_permissions(&open, Permissions::from_mode(0o750)).expect("a mode");
        assert!(said(open_directory(&open))
            .ends_with("others may enter it (mode 0750): it wants mode 0700"));
        fs::write(&file, "").expect("a file");
        assert!(said(open_directory(&file)).ends_with("is no folder"));
    }

    #[test]
    fn a_socket_is_replaced_where_nobody_has_it() {
        let folder = Folder::new("socket");
        for name in ["stream", "datagram"] {
            let path = folder.0.join(name);
            let bind = |path: &Path| match name {
                "stream" => listen(path).map(|(socket, place)| (Some(socket), None, place)),
                _ => bind_datagram(path).map(|(socket, place)| (None, Some(socket), place)),
            };
            let first = bind(&path).expect("a socket");
            assert_eq!(
                fs::metadata(&path).map(|told| told.mode() & 0o777).ok(),
                Some(0o600)
            );
            assert!(said(bind(&path)).ends_with("another program has this socket open"));
            // who ends without order leaves the socket
            let (stream, datagram, place) = first;
            drop((stream, datagram));
            std::mem::forget(place);
            assert!(path.exists());
            // (a child that another test starts has this file open too, until it is another program)
            let second = (0..10_000).find_map(|_| {
                std::thread::sleep(std::time::Duration::from_millis(1));
                bind(&path).ok()
            });
            let second = second.expect("the same place");
            drop(second);
            assert!(!path.exists());
            fs::write(&path, "").expect("a file");
            assert!(said(bind(&path)).ends_with("stands there, and is no socket"));
        }
    }
}
