//! What Rattle's runtime gives to a program: its words, its files, and the three streams, of which none is buffered.
use crate::memory::{AllocError, Global, TryVec};
use std::io::{self, ErrorKind, Read, Write};
#[cfg(unix)]
use std::os::unix::io::AsFd;
#[cfg(windows)]
use std::os::windows::io::AsHandle;
use std::string::String;
use std::vec::{IntoIter, Vec};

/// The words of a program, of which the first is its name.
pub type Args = IntoIter<String>;

/// What knows the words of a program.
pub trait Env {
    /// The words. It fails at one that is not UTF-8, and where there is no memory for them.
    fn words(&self) -> io::Result<Args>;
}

/// Calls by the names that std has.
pub mod env {
    use super::{Args, Env, io};

    /// The words of a program.
    pub fn args<R: Env>(rt: &R) -> io::Result<Args> {
        rt.words()
    }
}

/// What opens files.
pub trait Files {
    /// A file.
    type File: Read + OpenFile;

    /// The file at a path, to be read.
    fn open(&self, path: &str) -> io::Result<Self::File>;
}

/// A file that was opened.
pub trait OpenFile {
    /// What the system knows of it.
    fn metadata(&self) -> io::Result<std::fs::Metadata>;
}

impl OpenFile for std::fs::File {
    fn metadata(&self) -> io::Result<std::fs::Metadata> {
        std::fs::File::metadata(self)
    }
}

/// Calls by the names that std has.
#[derive(Clone, Copy, Debug)]
pub struct File;

impl File {
    /// The file at a path, to be read.
    pub fn open<R: Files>(rt: &R, path: &str) -> io::Result<R::File> {
        rt.open(path)
    }
}

/// The runtime of a program.
#[derive(Clone, Copy, Debug)]
pub struct HostRuntime;

impl HostRuntime {
    /// The allocator.
    pub fn alloc(&self) -> Global {
        Global
    }

    /// Standard input.
    pub fn stdin(&self) -> Stream {
        Stream(stream(&io::stdin()))
    }

    /// Standard output.
    pub fn stdout(&self) -> Stream {
        Stream(stream(&io::stdout()))
    }

    /// Standard error.
    pub fn stderr(&self) -> Stream {
        Stream(stream(&io::stderr()))
    }
}

impl Env for HostRuntime {
    fn words(&self) -> io::Result<Args> {
        let mut words = Vec::new();
        for word in std::env::args_os() {
            let word = word.into_string().map_err(|_| ErrorKind::InvalidData)?;
            words.try_push(word).map_err(|AllocError| ErrorKind::OutOfMemory)?;
        }
        Ok(words.into_iter())
    }
}

impl Files for HostRuntime {
    type File = std::fs::File;

    fn open(&self, path: &str) -> io::Result<std::fs::File> {
        std::fs::File::open(path)
    }
}

#[cfg(unix)]
fn stream(stream: &impl AsFd) -> io::Result<std::fs::File> {
    Ok(stream.as_fd().try_clone_to_owned()?.into())
}

#[cfg(windows)]
fn stream(stream: &impl AsHandle) -> io::Result<std::fs::File> {
    Ok(stream.as_handle().try_clone_to_owned()?.into())
}

/// A stream of a program, or why there is none. Each call asks the system at once.
#[derive(Debug)]
pub struct Stream(io::Result<std::fs::File>);

impl Stream {
    fn file(&mut self) -> io::Result<&mut std::fs::File> {
        self.0.as_mut().map_err(|error| error.kind().into())
    }
}

impl Read for Stream {
    fn read(&mut self, buf: &mut [u8]) -> io::Result<usize> {
        self.file()?.read(buf)
    }

    fn read_to_end(&mut self, buf: &mut Vec<u8>) -> io::Result<usize> {
        self.file()?.read_to_end(buf)
    }
}

impl Write for Stream {
    fn write(&mut self, buf: &[u8]) -> io::Result<usize> {
        self.file()?.write(buf)
    }

    fn flush(&mut self) -> io::Result<()> {
        Ok(())
    }
}
