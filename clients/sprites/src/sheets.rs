//! Folders of sprites, and the sheets and the index that are written.

use std::fmt::{self, Write as _};
use std::fs;
use std::path::{Path, PathBuf};

use etagere::{size2, Size};

use crate::pack::{place_all, Packed, Packer};
use crate::png::{self, Image};
use crate::Fault;

/// An image and the name of its file.
#[derive(Clone, Debug)]
pub struct Sprite {
    /// The name of its file, without the folder.
    pub name: String,
    /// Its pixels.
    pub image: Image,
}

/// What was written.
#[derive(Clone, Debug, PartialEq)]
pub struct Report {
    /// How many sprites there are.
    pub sprites: usize,
    /// The part of each sheet that sprites cover, from 0 to 1.
    pub fill: Vec<f64>,
}

impl Report {
    /// The part of all sheets that sprites cover.
    #[must_use]
    pub fn whole_fill(&self) -> f64 {
        self.fill.iter().sum::<f64>() / self.fill.len().max(1) as f64
    }
}

impl fmt::Display for Report {
    fn fmt(&self, f: &mut fmt::Formatter<'_>) -> fmt::Result {
        for (page, fill) in self.fill.iter().enumerate() {
            writeln!(f, "{}: {:.1} % filled", sheet_name(page), 100.0 * fill)?;
        }
        let (sheets, fill) = (self.fill.len(), 100.0 * self.whole_fill());
        writeln!(f, "{} sprites on {sheets} sheets, {fill:.1} % filled", self.sprites)
    }
}

/// All PNG files of a folder, by their names.
///
/// # Errors
///
/// [`Fault::File`], [`Fault::Name`], [`Fault::Image`] or [`Fault::NoSprites`].
pub fn read_folder(folder: &Path) -> Result<Vec<Sprite>, Fault> {
    let unreadable = |fault| Fault::File(folder.to_owned(), fault);
    let mut sprites = Vec::new();
    for entry in fs::read_dir(folder).map_err(unreadable)? {
        let path = entry.map_err(unreadable)?.path();
        if path.extension().is_some_and(|extension| extension.eq_ignore_ascii_case("png")) {
            sprites.push(read_sprite(&path)?);
        }
    }
    if sprites.is_empty() {
        return Err(Fault::NoSprites(folder.to_owned()));
    }
    sprites.sort_by(|one, other| one.name.cmp(&other.name));
    Ok(sprites)
}

fn read_sprite(path: &Path) -> Result<Sprite, Fault> {
    let name = path.file_name().and_then(|name| name.to_str()).ok_or_else(|| Fault::Name(path.to_owned()))?;
    let bytes = fs::read(path).map_err(|fault| Fault::File(path.to_owned(), fault))?;
    let image = png::decode(&bytes).map_err(|fault| Fault::Image(path.to_owned(), fault))?;
    Ok(Sprite { name: name.to_owned(), image })
}

/// Packs sprites into square sheets, and writes `sheet-0.png` and so on with `index.json` into a folder, which is made
/// where it isn't there.
///
/// # Errors
///
/// [`Fault::Sheet`], [`Fault::TooLarge`] or [`Fault::Memory`], with nothing written; [`Fault::File`].
pub fn write_sheets(sprites: &[Sprite], side: i32, padding: i32, folder: &Path) -> Result<Report, Fault> {
    let mut packer = Packer::new(side, padding)?;
    let sizes: Vec<_> = sprites.iter().map(|sprite| (sprite.name.as_str(), size_of(&sprite.image))).collect();
    let packed = place_all(&mut packer, &sizes)?;

    fs::create_dir_all(folder).map_err(|fault| Fault::File(folder.to_owned(), fault))?;
    let mut fill = Vec::new();
    for page in 0..packer.pages() {
        let sheet = drawn(sprites, &packed, page, side);
        write(folder.join(sheet_name(page)), &png::encode(&sheet))?;
        fill.push(covered(sprites, &packed, page) / (f64::from(side) * f64::from(side)));
    }
    write(folder.join("index.json"), index(sprites, &packed, packer.pages(), side).as_bytes())?;
    Ok(Report { sprites: sprites.len(), fill })
}

/// Sides of images fit, by [`png::MOST_SIDE`].
fn size_of(image: &Image) -> Size {
    let side = |length: usize| i32::try_from(length).unwrap_or(i32::MAX);
    size2(side(image.width()), side(image.height()))
}

fn on_page<'s>(
    sprites: &'s [Sprite],
    packed: &'s [Packed],
    page: usize,
) -> impl Iterator<Item = (&'s Sprite, &'s Packed)> {
    sprites.iter().zip(packed).filter(move |(_, at)| at.page == page)
}

/// The sheet with its sprites.
fn drawn(sprites: &[Sprite], packed: &[Packed], page: usize, side: i32) -> Image {
    let side = side.unsigned_abs() as usize;
    let mut sheet = Image::empty(side, side);
    for (sprite, at) in on_page(sprites, packed, page) {
        sheet.put(&sprite.image, at.corner.x.unsigned_abs() as usize, at.corner.y.unsigned_abs() as usize);
    }
    sheet
}

/// How many pixels of a sheet sprites cover.
fn covered(sprites: &[Sprite], packed: &[Packed], page: usize) -> f64 {
    on_page(sprites, packed, page).map(|(sprite, _)| sprite.image.width() as f64 * sprite.image.height() as f64).sum()
}

fn sheet_name(page: usize) -> String {
    format!("sheet-{page}.png")
}

fn write(path: PathBuf, bytes: &[u8]) -> Result<(), Fault> {
    fs::write(&path, bytes).map_err(|fault| Fault::File(path, fault))
}

/// The index: for each sprite its sheet and its rectangle there, and for each sheet its file and its sides.
fn index(sprites: &[Sprite], packed: &[Packed], pages: usize, side: i32) -> String {
    let mut text = String::from("{\n  \"frames\": {");
    for (number, (sprite, at)) in sprites.iter().zip(packed).enumerate() {
        let (name, size, corner) = (quoted(&sprite.name), size_of(&sprite.image), at.corner);
        let (x, y, w, h, page) = (corner.x, corner.y, size.width, size.height, at.page);
        let comma = if number == 0 { "" } else { "," };
        // A string takes all.
        let _ =
            write!(text, "{comma}\n    {name}: {{\"x\": {x}, \"y\": {y}, \"w\": {w}, \"h\": {h}, \"page\": {page}}}");
    }
    text.push_str("\n  },\n  \"pages\": [");
    for page in 0..pages {
        let (name, comma) = (sheet_name(page), if page == 0 { "" } else { "," });
        let _ = write!(text, "{comma}\n    {{\"image\": \"{name}\", \"w\": {side}, \"h\": {side}}}");
    }
    text.push_str("\n  ]\n}\n");
    text
}

/// A text as JSON has it.
fn quoted(text: &str) -> String {
    let mut quoted = String::from("\"");
    for character in text.chars() {
        match character {
            '"' | '\\' => quoted.extend(['\\', character]),
            '\0'..='\x1f' => {
                let _ = write!(quoted, "\\u{:04x}", u32::from(character));
            }
            _ => quoted.push(character),
        }
    }
    quoted.push('"');
    quoted
}

#[cfg(test)]
mod tests {
    use super::*;

    #[test]
    fn names_are_quoted() {
        assert_eq!(quoted("a \"b\" \\ é\n"), "\"a \\\"b\\\" \\\\ é\\u000a\"");
    }

    #[test]
    fn a_fill_is_that_of_all_sheets() {
        assert_eq!(Report { sprites: 3, fill: vec![1.0, 0.5] }.whole_fill(), 0.75);
    }
}
