//! The example of the README: places two items, gives the first back, places a third, and draws what is there.
//!
//! `cargo run --example readme > atlas.svg`

use std::io::{self, Write};

use etagere::{size2, AtlasAllocator};

fn main() -> io::Result<()> {
    let mut atlas = AtlasAllocator::new(size2(1000, 1000));

    let first = atlas.allocate(size2(100, 100)).expect("an empty atlas has room");
    let second = atlas.allocate(size2(900, 200)).expect("there is room");
    atlas.deallocate(first.id);
    let third = atlas.allocate(size2(300, 200)).expect("there is room");

    eprintln!("allocated {:?} and {:?}", second.rectangle, third.rectangle);
    let mut output = io::stdout().lock();
    atlas.dump_svg(&mut output)?;
    output.flush()
}
