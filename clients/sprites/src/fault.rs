//! What can go wrong.

use std::path::PathBuf;
use std::{error, fmt, io};

use etagere::{AllocError, OptionsFault};

use crate::png::PngFault;

/// Why sprites aren't packed.
#[derive(Debug)]
pub enum Fault {
    /// A file or folder can't be read or written.
    File(PathBuf, io::Error),
    /// A file isn't an image that is read.
    Image(PathBuf, PngFault),
    /// The name of a file isn't Unicode text, as an index needs it.
    Name(PathBuf),
    /// A folder has no file whose name ends with `.png`.
    NoSprites(PathBuf),
    /// A sprite is larger than a sheet. Its name, its sides and the side of a sheet follow.
    TooLarge(String, (i32, i32), i32),
    /// There is no atlas for sheets of this side and padding.
    Sheet(OptionsFault),
    /// Memory ran out.
    Memory,
}

impl fmt::Display for Fault {
    fn fmt(&self, f: &mut fmt::Formatter<'_>) -> fmt::Result {
        match self {
            Self::File(path, fault) => write!(f, "{}: {fault}", path.display()),
            Self::Image(path, fault) => write!(f, "{}: {fault}", path.display()),
            Self::Name(path) => write!(f, "{}: the name isn't Unicode text", path.display()),
            Self::NoSprites(path) => write!(f, "{}: no PNG files are in this folder", path.display()),
            Self::TooLarge(name, (width, height), side) => {
                write!(f, "{name}: {width} x {height} pixels are more than a sheet of {side} x {side} has")
            }
            Self::Sheet(fault) => write!(f, "sheets of this side and padding can't be made: {fault}"),
            Self::Memory => f.write_str("there is no memory"),
        }
    }
}

impl error::Error for Fault {
    fn source(&self) -> Option<&(dyn error::Error + 'static)> {
        match self {
            Self::File(_, fault) => Some(fault),
            Self::Image(_, fault) => Some(fault),
            Self::Sheet(fault) => Some(fault),
            _ => None,
        }
    }
}

impl From<AllocError> for Fault {
    fn from(_: AllocError) -> Self {
        Self::Memory
    }
}
