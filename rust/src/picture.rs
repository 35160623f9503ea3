//! Pictures of an atlas, which go out.

use std::io::{self, Write};

use crate::sys::Status;
use crate::AllocError;

/// Writes the text of a picture.
pub fn write(picture: Result<Vec<u8>, Status>, output: &mut dyn Write) -> io::Result<()> {
    match picture {
        Ok(text) => output.write_all(&text),
        Err(Status::MEMORY) => Err(io::Error::new(io::ErrorKind::OutOfMemory, AllocError)),
        Err(status) => status.unexpected(),
    }
}
