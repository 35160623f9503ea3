//! PNG files of 8 bits a channel that aren't interlaced: grey or colour, with alpha or without.
//!
//! Read are files of all encoders; written are files with alpha, compressed by fixed codes. It is the smallest reader and
//! writer that does: palettes, other depths and colour profiles are left out.

mod deflate;
mod filter;
mod inflate;
mod sums;

use std::{error, fmt};

/// The longest side of an image that is read, in pixels.
pub const MOST_SIDE: usize = 16384;

const SIGNATURE: &[u8; 8] = b"\x89PNG\r\n\x1a\n";

/// Why a file isn't an image that is read.
#[derive(Copy, Clone, Debug, PartialEq, Eq)]
pub enum PngFault {
    /// It doesn't begin as a PNG file.
    NotPng,
    /// It ends too early, or lacks a part.
    Cut,
    /// A checksum is another than that of the bytes.
    Sum,
    /// A kind of image that isn't read: other than 8 bits a channel, a palette, interlaced, or with a part that readers
    /// have to know.
    Kind,
    /// A side is 0 or above [`MOST_SIDE`].
    Side,
    /// The compressed pixels aren't as they must be.
    Data,
}

impl fmt::Display for PngFault {
    fn fmt(&self, f: &mut fmt::Formatter<'_>) -> fmt::Result {
        f.write_str(match self {
            Self::NotPng => "this is no PNG file",
            Self::Cut => "the file ends too early",
            Self::Sum => "a checksum is wrong",
            Self::Kind => "only PNG files of grey or colour with 8 bits a channel, not interlaced, are read",
            Self::Side => "a side is 0 or above 16384 pixels",
            Self::Data => "the compressed pixels are broken",
        })
    }
}

impl error::Error for PngFault {}

/// Red, green, blue and alpha.
pub type Pixel = [u8; 4];

/// Rows of pixels.
#[derive(Clone, Debug, PartialEq, Eq)]
pub struct Image {
    width: usize,
    pixels: Vec<Pixel>,
}

impl Image {
    /// An image that is transparent all over.
    #[must_use]
    pub fn empty(width: usize, height: usize) -> Self {
        Self { width, pixels: vec![[0; 4]; width * height] }
    }

    /// An image of the colour that is given for each x and y.
    #[must_use]
    pub fn of(width: usize, height: usize, colour: impl Fn(usize, usize) -> Pixel) -> Self {
        let pixels = (0..height).flat_map(|y| (0..width).map(move |x| (x, y))).map(|(x, y)| colour(x, y)).collect();
        Self { width, pixels }
    }

    /// Its width in pixels.
    #[must_use]
    pub fn width(&self) -> usize {
        self.width
    }

    /// Its height in pixels.
    #[must_use]
    pub fn height(&self) -> usize {
        self.pixels.len() / self.width.max(1)
    }

    /// Its rows, from the upper one on.
    pub fn rows(&self) -> impl Iterator<Item = &[Pixel]> {
        self.pixels.chunks_exact(self.width.max(1))
    }

    /// The part with its upper left corner at `x` and `y`, as far as it lies inside.
    #[must_use]
    pub fn part(&self, x: usize, y: usize, width: usize, height: usize) -> Self {
        let rows = self.rows().skip(y).take(height);
        let pixels = rows.flat_map(|row| row.iter().skip(x).take(width)).copied().collect();
        Self { width: width.min(self.width.saturating_sub(x)), pixels }
    }

    /// Copies an image to `x` and `y`, as far as it lies inside.
    pub fn put(&mut self, image: &Self, x: usize, y: usize) {
        let rows = self.pixels.chunks_exact_mut(self.width.max(1)).skip(y);
        for (to, from) in rows.zip(image.rows()) {
            for (to, from) in to.iter_mut().skip(x).zip(from) {
                *to = *from;
            }
        }
    }
}

/// What the first chunk says.
struct Header {
    width: usize,
    height: usize,
    channels: usize,
}

impl Header {
    fn read(data: &[u8]) -> Result<Self, PngFault> {
        let &[a, b, c, d, e, f, g, h, depth, colour, compression, filter, interlace] = data else {
            return Err(PngFault::Cut);
        };
        let side = |bytes| match u32::from_be_bytes(bytes) as usize {
            side @ 1..=MOST_SIDE => Ok(side),
            _ => Err(PngFault::Side),
        };
        let (width, height) = (side([a, b, c, d])?, side([e, f, g, h])?);
        let channels = match colour {
            0 => 1,
            2 => 3,
            4 => 2,
            6 => 4,
            _ => return Err(PngFault::Kind),
        };
        if (depth, compression, filter, interlace) != (8, 0, 0, 0) {
            return Err(PngFault::Kind);
        }
        Ok(Self { width, height, channels })
    }
}

/// Takes a chunk from the front of the bytes: its name and its data.
fn next_chunk<'b>(bytes: &mut &'b [u8]) -> Result<(&'b [u8; 4], &'b [u8]), PngFault> {
    let length = u32::from_be_bytes(*next_four(bytes)?) as usize;
    let named = *bytes;
    let name = next_four(bytes)?;
    let data = bytes.get(..length).ok_or(PngFault::Cut)?;
    *bytes = &bytes[length..];
    let sum = u32::from_be_bytes(*next_four(bytes)?);
    if sum != sums::crc32(&named[..4 + length]) {
        return Err(PngFault::Sum);
    }
    Ok((name, data))
}

fn next_four<'b>(bytes: &mut &'b [u8]) -> Result<&'b [u8; 4], PngFault> {
    let four = bytes.get(..4).and_then(|four| four.try_into().ok()).ok_or(PngFault::Cut)?;
    *bytes = &bytes[4..];
    Ok(four)
}

/// The parts of a file that say its pixels.
struct Parts {
    header: Header,
    compressed: Vec<u8>,
    /// The colour that is transparent, where one is named.
    transparent: Option<[u8; 3]>,
}

fn read_parts(file: &[u8]) -> Result<Parts, PngFault> {
    let mut bytes = file.strip_prefix(SIGNATURE).ok_or(PngFault::NotPng)?;
    let (b"IHDR", data) = next_chunk(&mut bytes)? else {
        return Err(PngFault::Cut);
    };
    let mut parts = Parts { header: Header::read(data)?, compressed: Vec::new(), transparent: None };
    loop {
        match next_chunk(&mut bytes)? {
            (b"IDAT", data) => parts.compressed.extend_from_slice(data),
            (b"tRNS", data) => parts.transparent = transparent(&parts.header, data)?,
            (b"IEND", _) => return Ok(parts),
            // A palette may stand beside colours, for those who can't show them all; what begins with a small letter
            // may be passed over.
            (b"PLTE" | [b'a'..=b'z', ..], _) => {}
            _ => return Err(PngFault::Kind),
        }
    }
}

/// The transparent colour of an image without alpha, which is written with 16 bits a channel.
fn transparent(header: &Header, data: &[u8]) -> Result<Option<[u8; 3]>, PngFault> {
    match (header.channels, data) {
        (1, &[0, grey]) => Ok(Some([grey; 3])),
        (3, &[0, red, 0, green, 0, blue]) => Ok(Some([red, green, blue])),
        // No pixel has more than 8 bits.
        (1, &[_, _]) | (3, &[_, _, _, _, _, _]) => Ok(None),
        _ => Err(PngFault::Kind),
    }
}

/// The image of a PNG file.
///
/// # Errors
///
/// The first [`PngFault`] that is met.
pub fn decode(file: &[u8]) -> Result<Image, PngFault> {
    let Parts { header, compressed, transparent } = read_parts(file)?;
    let row_length = header.width * header.channels;
    let lines = inflate::inflate(&compressed, (row_length + 1) * header.height)?;
    let samples = filter::undone(&lines, row_length, header.channels)?;
    let pixels = samples.chunks_exact(header.channels).map(|sample| pixel(sample, transparent)).collect();
    Ok(Image { width: header.width, pixels })
}

fn pixel(sample: &[u8], transparent: Option<[u8; 3]>) -> Pixel {
    let keyed = |colour: [u8; 3]| {
        let [red, green, blue] = colour;
        [red, green, blue, if transparent == Some(colour) { 0 } else { 255 }]
    };
    match *sample {
        [grey] => keyed([grey; 3]),
        [grey, alpha] => [grey, grey, grey, alpha],
        [red, green, blue] => keyed([red, green, blue]),
        [red, green, blue, alpha] => [red, green, blue, alpha],
        _ => [0; 4],
    }
}

/// A PNG file of an image, with alpha.
#[must_use]
pub fn encode(image: &Image) -> Vec<u8> {
    let mut header = Vec::new();
    for side in [image.width(), image.height()] {
        header.extend_from_slice(&(side as u32).to_be_bytes());
    }
    header.extend_from_slice(&[8, 6, 0, 0, 0]);
    let samples: Vec<u8> = image.pixels.iter().flatten().copied().collect();
    let lines = filter::done(&samples, image.width * 4, 4);

    let mut file = SIGNATURE.to_vec();
    for (name, data) in [(b"IHDR", header), (b"IDAT", deflate::deflate(&lines)), (b"IEND", Vec::new())] {
        let named = [&name[..], &data].concat();
        file.extend_from_slice(&(data.len() as u32).to_be_bytes());
        file.extend_from_slice(&named);
        file.extend_from_slice(&sums::crc32(&named).to_be_bytes());
    }
    file
}

#[cfg(test)]
mod tests;
