//! Packs generated sprites with the program, and looks for each on the sheets where the index says.

use std::collections::BTreeMap;
use std::path::{Path, PathBuf};
use std::process::{Command, Output};
use std::{env, fs, process};

use sprites::png::{decode, encode, Image};

/// A folder of its own for a test, which goes with it.
struct Room(PathBuf);

impl Room {
    fn new(name: &str) -> Self {
        let folder = env::temp_dir().join(format!("sprites-{name}-{}", process::id()));
        fs::create_dir_all(folder.join("in")).expect("a folder is made");
        Self(folder)
    }

    fn add(&self, name: &str, bytes: &[u8]) {
        fs::write(self.0.join("in").join(name), bytes).expect("a file is written");
    }

    fn pack(&self, options: &[&str]) -> Output {
        let mut command = Command::new(env!("CARGO_BIN_EXE_sprites"));
        command.args(options).args([self.0.join("in"), self.0.join("out")]).output().expect("it runs")
    }

    fn output(&self) -> PathBuf {
        self.0.join("out")
    }
}

impl Drop for Room {
    fn drop(&mut self) {
        let _ = fs::remove_dir_all(&self.0);
    }
}

/// A line of the index.
#[derive(Copy, Clone, Debug)]
struct Frame {
    x: usize,
    y: usize,
    w: usize,
    h: usize,
    page: usize,
}

impl Frame {
    fn overlaps(&self, other: &Self) -> bool {
        self.page == other.page
            && self.x < other.x + other.w
            && other.x < self.x + self.w
            && self.y < other.y + other.h
            && other.y < self.y + self.h
    }
}

/// The frames of an index, as this program writes it: one on a line.
fn frames(folder: &Path) -> BTreeMap<String, Frame> {
    let text = fs::read_to_string(folder.join("index.json")).expect("there is an index");
    let frame = |line: &str| {
        let (name, rest) = line.trim().strip_prefix('"')?.split_once("\": {\"x\"")?;
        let numbers: Vec<usize> =
            rest.split(|c: char| !c.is_ascii_digit()).filter_map(|word| word.parse().ok()).collect();
        let [x, y, w, h, page] = numbers[..] else { return None };
        Some((name.to_owned(), Frame { x, y, w, h, page }))
    };
    text.lines().filter_map(frame).collect()
}

fn sheet(folder: &Path, page: usize) -> Image {
    decode(&fs::read(folder.join(format!("sheet-{page}.png"))).expect("there is a sheet")).expect("it is an image")
}

fn said(bytes: &[u8]) -> String {
    String::from_utf8_lossy(bytes).into_owned()
}

/// Sprites of many sizes, each with pixels of its own.
fn generated(count: usize) -> BTreeMap<String, Image> {
    let sprite = |n: usize| {
        let (width, height) = (1 + n * 37 % 61, 1 + n * 53 % 47);
        Image::of(width, height, |x, y| [n as u8, (x * 5 + n) as u8, (y * 9) as u8, 255 - (x + y) as u8 % 3])
    };
    (0..count).map(|n| (format!("sprite {n:03}.png"), sprite(n))).collect()
}

fn packs(name: &str, side: usize, padding: usize) {
    let room = Room::new(name);
    let sprites = generated(150);
    for (name, image) in &sprites {
        room.add(name, &encode(image));
    }
    let output = room.pack(&["--size", &side.to_string(), "--padding", &padding.to_string()]);
    assert!(output.status.success(), "{}", said(&output.stderr));

    let frames = frames(&room.output());
    assert!(frames.keys().eq(sprites.keys()));
    let pages = frames.values().map(|frame| frame.page).max().expect("there are frames") + 1;
    assert!(pages > 1);
    assert!(said(&output.stdout).contains(&format!("150 sprites on {pages} sheets, ")));
    let sheets: Vec<Image> = (0..pages).map(|page| sheet(&room.output(), page)).collect();
    assert!(!room.output().join(format!("sheet-{pages}.png")).exists());

    for (name, frame) in &frames {
        assert!(frame.x + frame.w <= side && frame.y + frame.h <= side);
        assert_eq!(sheets[frame.page].part(frame.x, frame.y, frame.w, frame.h), sprites[name], "{name}");
    }
    let padded: Vec<Frame> =
        frames.values().map(|&frame| Frame { w: frame.w + padding, h: frame.h + padding, ..frame }).collect();
    for (number, frame) in padded.iter().enumerate() {
        assert!(padded[..number].iter().all(|other| !frame.overlaps(other)));
    }
    is_full(&said(&output.stdout), &frames, pages, side);
}

/// The ratio that is printed is that of the frames, and more than half.
fn is_full(printed: &str, frames: &BTreeMap<String, Frame>, pages: usize, side: usize) {
    let covered: usize = frames.values().map(|frame| frame.w * frame.h).sum();
    let fill = 100.0 * covered as f64 / (pages * side * side) as f64;
    assert!(printed.ends_with(&format!("{fill:.1} % filled\n")), "{printed}");
    assert!(fill > 50.0, "{printed}");
}

#[test]
fn sprites_are_where_the_index_says() {
    packs("plain", 128, 0);
}

#[test]
fn sprites_with_gaps_are_where_the_index_says() {
    packs("gaps", 150, 2);
}

/// Packs one file, and what the program says why it doesn't.
fn refusal(name: &str, file: &str, bytes: &[u8], options: &[&str]) -> String {
    let room = Room::new(name);
    room.add(file, bytes);
    let output = room.pack(options);
    assert_eq!(output.status.code(), Some(1));
    assert!(!room.output().exists(), "nothing is written");
    said(&output.stderr)
}

#[test]
fn a_sprite_larger_than_a_sheet_is_refused_by_name() {
    let image = encode(&Image::empty(65, 2));
    let told = refusal("large", "wide.png", &image, &["--size", "64"]);
    assert_eq!(told, "sprites: wide.png: 65 x 2 pixels are more than a sheet of 64 x 64 has\n");
}

#[test]
fn a_file_that_is_no_image_is_refused_by_name() {
    assert!(refusal("none", "a.png", b"hello", &[]).ends_with("in/a.png: this is no PNG file\n"));
    let file = encode(&Image::empty(9, 9));
    let told = refusal("cut", "b.png", &file[..file.len() - 1], &[]);
    assert!(told.ends_with("in/b.png: the file ends too early\n"), "{told}");
    assert_eq!(told.lines().count(), 1);
}

#[test]
fn a_folder_without_sprites_is_refused() {
    assert!(refusal("empty", "a.txt", b"hello", &[]).ends_with("in: no PNG files are in this folder\n"));
}

#[test]
fn a_size_without_a_sheet_is_refused() {
    let image = encode(&Image::empty(9, 9));
    assert!(refusal("size", "a.png", &image, &["--size", "0"]).contains("sheets of this side"));
    assert!(refusal("area", "a.png", &image, &["--size", "65535"]).contains("sheets of this side"));
}

#[test]
fn wrong_arguments_are_told() {
    for options in [&["--size"][..], &["--size", "x"], &["--wrong"], &["third"]] {
        let room = Room::new("arguments");
        let output = room.pack(options);
        assert_eq!(output.status.code(), Some(2));
        assert!(said(&output.stderr).starts_with("usage: sprites "));
    }
}
