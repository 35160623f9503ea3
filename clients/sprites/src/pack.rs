//! Where each sprite goes.

use etagere::{size2, AtlasAllocator, OptionsFault, Point, Size};

use crate::{png, Fault};

/// The longest side of a sheet in pixels: that of an image that is read.
const MOST_SIDE: i32 = png::MOST_SIDE as i32;

/// A sprite's sheet, counted from 0, and its upper left corner there.
#[derive(Copy, Clone, Debug, PartialEq, Eq)]
pub struct Packed {
    /// The number of the sheet.
    pub page: usize,
    /// The first pixel.
    pub corner: Point,
}

/// Sheets that are filled one after the other.
pub struct Packer {
    side: i32,
    padding: i32,
    pages: Vec<AtlasAllocator>,
}

impl Packer {
    /// A packer of square sheets, on which so many pixels between two sprites stay empty.
    ///
    /// # Errors
    ///
    /// [`Fault::Sheet`], where sheets can't have this side and padding.
    pub fn new(side: i32, padding: i32) -> Result<Self, Fault> {
        if !(1..=MOST_SIDE).contains(&side) || padding < 0 {
            return Err(Fault::Sheet(OptionsFault::Size));
        }
        let packer = Self { side, padding, pages: Vec::new() };
        packer.new_page()?;
        Ok(packer)
    }

    /// How many sheets were opened.
    #[must_use]
    pub fn pages(&self) -> usize {
        self.pages.len()
    }

    /// The side of a sheet.
    #[must_use]
    pub fn side(&self) -> i32 {
        self.side
    }

    /// The padding lies to the right of and below each sprite, and may be past the edge of its sheet.
    fn new_page(&self) -> Result<AtlasAllocator, Fault> {
        let side = self.side.saturating_add(self.padding);
        AtlasAllocator::try_new(size2(side, side)).map_err(Fault::Sheet)
    }

    /// Finds a place for a sprite on the first sheet that has room for it, or on a new one.
    ///
    /// # Errors
    ///
    /// [`Fault::TooLarge`], where an empty sheet has no room for it; [`Fault::Memory`].
    pub fn place(&mut self, name: &str, size: Size) -> Result<Packed, Fault> {
        let padded = size2(size.width.saturating_add(self.padding), size.height.saturating_add(self.padding));
        for (number, page) in self.pages.iter_mut().enumerate() {
            if let Some(allocation) = page.try_allocate(padded)? {
                return Ok(Packed { page: number, corner: allocation.rectangle.min });
            }
        }
        let mut page = self.new_page()?;
        let allocation = page
            .try_allocate(padded)?
            .ok_or_else(|| Fault::TooLarge(name.to_owned(), (size.width, size.height), self.side))?;
        self.pages.push(page);
        Ok(Packed { page: self.pages.len() - 1, corner: allocation.rectangle.min })
    }
}

/// Finds a place for each of the named sizes, in their order. Tall ones are placed first, then wide ones, so that shelves
/// are filled with what is about as tall.
///
/// # Errors
///
/// As [`Packer::place`].
pub fn place_all(packer: &mut Packer, sprites: &[(&str, Size)]) -> Result<Vec<Packed>, Fault> {
    let mut order: Vec<usize> = (0..sprites.len()).collect();
    order.sort_by_key(|&number| {
        let (name, size) = sprites[number];
        (-size.height, -size.width, name)
    });
    let mut packed = vec![Packed { page: 0, corner: Point::new(0, 0) }; sprites.len()];
    for number in order {
        let (name, size) = sprites[number];
        packed[number] = packer.place(name, size)?;
    }
    Ok(packed)
}

#[cfg(test)]
mod tests {
    use super::*;

    #[test]
    fn a_sprite_as_large_as_a_sheet_has_one() {
        let mut packer = Packer::new(64, 2).expect("a sheet");
        let corner = Point::new(0, 0);
        assert_eq!(packer.place("whole", size2(64, 64)).expect("fits"), Packed { page: 0, corner });
        assert_eq!(packer.place("other", size2(64, 64)).expect("fits"), Packed { page: 1, corner });
        assert_eq!(packer.pages(), 2);
    }

    #[test]
    fn a_sprite_larger_than_a_sheet_is_refused() {
        let mut packer = Packer::new(64, 0).expect("a sheet");
        let refusal = packer.place("wide", size2(65, 1)).expect_err("too wide");
        assert_eq!(refusal.to_string(), "wide: 65 x 1 pixels are more than a sheet of 64 x 64 has");
        assert_eq!(packer.pages(), 0);
        assert!(packer.place("tall", size2(1, i32::MAX)).is_err());
    }

    #[test]
    fn sheets_without_an_atlas_are_refused() {
        for (side, padding) in [(0, 1), (-1, 3), (8, -1), (MOST_SIDE + 1, 0), (MOST_SIDE, i32::MAX)] {
            assert!(matches!(Packer::new(side, padding), Err(Fault::Sheet(_))));
        }
        assert!(Packer::new(MOST_SIDE, 1).is_ok());
    }
}
