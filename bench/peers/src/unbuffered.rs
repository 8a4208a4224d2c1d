//! Standard input and output with no buffer of their own, for programs that read and write by blocks.

use std::fs::File;
use std::io;
use std::os::fd::AsFd;

pub fn stdin() -> io::Result<File> {
    Ok(io::stdin().as_fd().try_clone_to_owned()?.into())
}

pub fn stdout() -> io::Result<File> {
    Ok(io::stdout().as_fd().try_clone_to_owned()?.into())
}
