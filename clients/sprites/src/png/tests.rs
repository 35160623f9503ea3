//! Whole files, of which some were written by Python's zlib.

use super::*;

fn picture() -> Image {
    Image::of(37, 23, |x, y| [(x * 7) as u8, (y * 11) as u8, (x * y) as u8, if x % 5 == 0 { 0 } else { 255 }])
}

/// A file with these chunks.
fn file_of(chunks: &[(&[u8; 4], &[u8])]) -> Vec<u8> {
    let mut file = SIGNATURE.to_vec();
    for (name, data) in chunks {
        let named = [&name[..], data].concat();
        file.extend_from_slice(&(data.len() as u32).to_be_bytes());
        file.extend_from_slice(&named);
        file.extend_from_slice(&sums::crc32(&named).to_be_bytes());
    }
    file
}

/// The first chunk of an image of 2 x 1 pixels.
fn header(depth: u8, colour: u8, interlace: u8) -> Vec<u8> {
    vec![0, 0, 0, 2, 0, 0, 0, 1, depth, colour, 0, 0, interlace]
}

/// An image of 2 x 1 pixels, whose row is written as it is.
fn read(colour: u8, row: &[u8], more: &[(&[u8; 4], &[u8])]) -> Result<Image, PngFault> {
    let (header, pixels) = (header(8, colour, 0), deflate::deflate(&[&[0], row].concat()));
    let chunks = [&[(b"IHDR", &header[..])], more, &[(b"IDAT", &pixels[..]), (b"IEND", &[])]].concat();
    decode(&file_of(&chunks))
}

fn two(first: Pixel, second: Pixel) -> Result<Image, PngFault> {
    Ok(Image { width: 2, pixels: vec![first, second] })
}

#[test]
fn what_is_written_is_read() {
    for image in [picture(), Image::empty(1, 1), Image::empty(300, 200), Image::of(1, 70, |_, y| [y as u8; 4])] {
        assert_eq!(decode(&encode(&image)), Ok(image));
    }
}

#[test]
fn each_kind_of_colour() {
    assert_eq!(read(0, &[7, 255], &[]), two([7, 7, 7, 255], [255; 4]));
    assert_eq!(read(4, &[7, 0, 9, 128], &[]), two([7, 7, 7, 0], [9, 9, 9, 128]));
    assert_eq!(read(2, &[1, 2, 3, 4, 5, 6], &[]), two([1, 2, 3, 255], [4, 5, 6, 255]));
    assert_eq!(read(6, &[1, 2, 3, 4, 5, 6, 7, 8], &[]), two([1, 2, 3, 4], [5, 6, 7, 8]));
}

#[test]
fn a_transparent_colour() {
    assert_eq!(read(0, &[7, 255], &[(b"tRNS", &[0, 7])]), two([7, 7, 7, 0], [255; 4]));
    assert_eq!(read(0, &[7, 255], &[(b"tRNS", &[1, 7])]), two([7, 7, 7, 255], [255; 4]));
    let row = [1, 2, 3, 4, 5, 6];
    assert_eq!(read(2, &row, &[(b"tRNS", &[0, 4, 0, 5, 0, 6])]), two([1, 2, 3, 255], [4, 5, 6, 0]));
    assert_eq!(read(2, &row, &[(b"tRNS", &[0, 4])]), Err(PngFault::Kind));
}

#[test]
fn parts_that_may_be_passed_over() {
    assert_eq!(read(0, &[7, 8], &[(b"tEXt", b"Title\0x")]), two([7, 7, 7, 255], [8, 8, 8, 255]));
    assert_eq!(read(0, &[7, 8], &[(b"NEWS", b"x")]), Err(PngFault::Kind));
}

#[test]
fn kinds_that_are_not_read() {
    for (depth, colour, interlace) in [(16, 6, 0), (1, 0, 0), (8, 3, 0), (8, 6, 1), (8, 5, 0)] {
        let file = file_of(&[(b"IHDR", &header(depth, colour, interlace)), (b"IEND", &[])]);
        assert_eq!(decode(&file), Err(PngFault::Kind));
    }
    let wide = [0, 0, 64, 1, 0, 0, 0, 1, 8, 6, 0, 0, 0];
    assert_eq!(decode(&file_of(&[(b"IHDR", &wide)])), Err(PngFault::Side));
    assert_eq!(decode(b"GIF89a"), Err(PngFault::NotPng));
    assert_eq!(decode(&file_of(&[(b"IEND", &[])])), Err(PngFault::Cut));
}

#[test]
fn pixels_of_another_number() {
    assert_eq!(read(0, &[7], &[]), Err(PngFault::Data));
    assert_eq!(read(0, &[7, 8, 9], &[]), Err(PngFault::Data));
    let file = file_of(&[(b"IHDR", &header(8, 0, 0)), (b"IDAT", &deflate::deflate(&[9, 7, 8])), (b"IEND", &[])]);
    assert_eq!(decode(&file), Err(PngFault::Data));
}

#[test]
fn each_cut_and_each_wrong_byte_is_told() {
    let file = encode(&picture());
    for index in 0..file.len() {
        let mut broken = file.clone();
        broken[index] ^= 0x10;
        assert!(decode(&broken).is_err(), "byte {index}");
        assert!(decode(&file[..index]).is_err(), "cut at {index}");
    }
}

#[test]
fn parts_of_images() {
    let mut image = Image::empty(4, 3);
    image.put(&Image::of(2, 2, |_, _| [9; 4]), 3, 2);
    assert_eq!(image.part(3, 2, 5, 5), Image::of(1, 1, |_, _| [9; 4]));
    assert_eq!(image.part(0, 0, 4, 2), Image::empty(4, 2));
    assert_eq!((image.width(), image.height()), (4, 3));
}

/// `zlib.compress(bytes((i * i // 7) % 11 for i in range(600)), 9)`, which has a block with codes of its own.
const OF_PYTHON: &[u8] = include_bytes!("of_python.zlib");

#[test]
fn a_stream_of_another_writer() {
    let bytes: Vec<u8> = (0..600_u32).map(|i| (i * i / 7 % 11) as u8).collect();
    assert_eq!(OF_PYTHON[2] >> 1 & 3, 2);
    assert_eq!(inflate::inflate(OF_PYTHON, 600), Ok(bytes));
}
