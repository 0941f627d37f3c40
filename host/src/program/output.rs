//! Writing an output: to a stream as it comes, to a file whole or not at all.

use crate::system;
use std::fs::{self, File, Metadata, OpenOptions, Permissions};
use std::io::{self, ErrorKind, Write};
use std::os::unix::fs::{MetadataExt, OpenOptionsExt, PermissionsExt};
use std::path::{Path, PathBuf};

// As many links as Linux follows.
const MOST_LINKS: usize = 40;

/// To standard output; a reader that has seen enough, as `head`, is no mistake.
pub fn standard(bytes: &[u8]) -> io::Result<()> {
    shown(bytes).map(drop)
}

/// The same, and whether its reader has not seen enough.
pub fn shown(bytes: &[u8]) -> io::Result<bool> {
    match system::stream(1).and_then(|out| write_to(out, bytes)) {
        Err(error) if error.kind() == ErrorKind::BrokenPipe => Ok(false),
        other => other.map(|()| true),
    }
}

/// To a path: a file is replaced once the new one is whole; a stream, a device or a pipe is written to.
pub fn named(path: &Path, bytes: &[u8]) -> io::Result<()> {
    let path = match followed(path)? {
        End::Stream(1) => return standard(bytes),
        End::Stream(number) => return system::stream(number).and_then(|out| write_to(out, bytes)),
        End::Path(path) => path,
    };
    match fs::metadata(&path) {
        Ok(old) if old.is_file() => writable(&path, &old).and_then(|()| replace(&path, Some(&old), bytes)),
        // A directory is refused here.
        Ok(_) => OpenOptions::new().write(true).open(&path).and_then(|out| write_to(out, bytes)),
        Err(error) if error.kind() == ErrorKind::NotFound => replace(&path, None, bytes),
        Err(error) => Err(error),
    }
}

fn write_to(mut to: impl Write, bytes: &[u8]) -> io::Result<()> {
    to.write_all(bytes)?;
    to.flush()
}

/// What a path comes to.
enum End {
    /// A stream of this program, as /dev/stdout is.
    Stream(i32),
    /// A path that is no link; there may be nothing yet.
    Path(PathBuf),
}

// Follows links by hand, since one that leads to nothing has an end too.
fn followed(path: &Path) -> io::Result<End> {
    let mut path = path.to_path_buf();
    for _ in 0..=MOST_LINKS {
        if let Some(number) = own_stream(&path) {
            return Ok(End::Stream(number));
        }
        match fs::read_link(&path) {
            Ok(target) => path = path.with_file_name("").join(target),
            Err(_) => return Ok(End::Path(path)),
        }
    }
    Err(io::Error::new(ErrorKind::Other, "its links lead round in a loop"))
}

// The number of a stream of this program that a path names. Its link would tell a file's name, but not how far it is written.
fn own_stream(path: &Path) -> Option<i32> {
    let folder = fs::canonicalize(path.parent()?).ok()?;
    let streams = ["/proc/self/fd", "/proc/thread-self/fd"];
    let own = streams.iter().any(|own| fs::canonicalize(own).map_or(false, |own| own == folder));
    let name = path.file_name()?.to_str().filter(|name| own && name.bytes().all(|byte| byte.is_ascii_digit()))?;
    name.parse().ok()
}

// Replacing a file by way of its folder would get round its protection.
fn writable(path: &Path, old: &Metadata) -> io::Result<()> {
    if old.permissions().readonly() {
        return Err(io::Error::new(ErrorKind::PermissionDenied, "it may not be written"));
    }
    OpenOptions::new().write(true).open(path).map(drop)
}

// Through a new file beside it, so that an existing one stays as it was until the new one is whole.
fn replace(path: &Path, old: Option<&Metadata>, bytes: &[u8]) -> io::Result<()> {
    let (new, beside) = new_beside(path, old.map_or(0o666, mode))?;
    let done = old
        .map_or(Ok(()), |old| like(old, &new))
        .and_then(|()| write_to(&new, bytes))
        .and_then(|()| new.sync_all())
        .and_then(|()| fs::rename(&beside, path));
    if done.is_err() {
        let _ = fs::remove_file(&beside);
    }
    system::finished();
    done
}

fn mode(of: &Metadata) -> u32 {
    of.mode() & 0o7777
}

// The owner and the mode of the old file, of which the mask may have taken bits; before the first byte is written.
fn like(old: &Metadata, new: &File) -> io::Result<()> {
    system::give(new, old.uid(), old.gid());
    new.set_permissions(Permissions::from_mode(mode(old)))
}

// A new file in the same folder, past those that an earlier run may have left when it was killed.
fn new_beside(path: &Path, mode: u32) -> io::Result<(File, PathBuf)> {
    if path.file_name().is_none() {
        return Err(io::Error::new(ErrorKind::NotFound, "it is no name of a file"));
    }
    let mut tried = 0;
    loop {
        let beside = path.with_file_name(format!(".macaroosh.{}.{tried}", std::process::id()));
        system::unfinished(&beside)?;
        match OpenOptions::new().write(true).create_new(true).mode(mode).open(&beside) {
            Ok(file) => return Ok((file, beside)),
            Err(error) => {
                system::finished();
                if error.kind() != ErrorKind::AlreadyExists || tried == 100 {
                    return Err(error);
                }
                tried += 1;
            }
        }
    }
}
