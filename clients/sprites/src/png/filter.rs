//! The filters of rows: each row of bytes is written as differences from a guess, behind a byte that names the guess.

use super::PngFault;

const KINDS: u8 = 5;

/// The guess of a kind, by the bytes to the left, above, and above to the left.
fn guess(kind: u8, left: u8, above: u8, corner: u8) -> u8 {
    match kind {
        1 => left,
        2 => above,
        3 => ((u16::from(left) + u16::from(above)) / 2) as u8,
        4 => nearest(left, above, corner),
        _ => 0,
    }
}

/// The one of the three that is nearest to left + above - corner.
fn nearest(left: u8, above: u8, corner: u8) -> u8 {
    let sum = i16::from(left) + i16::from(above) - i16::from(corner);
    let distance = |byte: u8| (sum - i16::from(byte)).abs();
    // Of equals the first one is taken.
    [above, corner].into_iter().fold(left, |best, byte| if distance(byte) < distance(best) { byte } else { best })
}

/// The bytes of rows that are written as differences; `step` bytes make a pixel.
pub fn undone(lines: &[u8], row_length: usize, step: usize) -> Result<Vec<u8>, PngFault> {
    let mut bytes = Vec::with_capacity(lines.len());
    let mut before = vec![0; row_length];
    for line in lines.chunks_exact(row_length + 1) {
        let (kind, differences) = (line[0], &line[1..]);
        if kind >= KINDS {
            return Err(PngFault::Data);
        }
        let mut row = Vec::with_capacity(row_length);
        for (x, difference) in differences.iter().enumerate() {
            let (left, corner) = if x < step { (0, 0) } else { (row[x - step], before[x - step]) };
            row.push(difference.wrapping_add(guess(kind, left, before[x], corner)));
        }
        bytes.extend_from_slice(&row);
        before = row;
    }
    Ok(bytes)
}

/// Rows as differences, each of the kind whose differences are smallest.
pub fn done(bytes: &[u8], row_length: usize, step: usize) -> Vec<u8> {
    let mut lines = Vec::with_capacity(bytes.len() + bytes.len() / row_length.max(1));
    let mut before = vec![0; row_length];
    for row in bytes.chunks_exact(row_length.max(1)) {
        let best = (0..KINDS).map(|kind| differences(kind, row, &before, step)).min_by_key(|line| weight(line));
        lines.extend(best.unwrap_or_default());
        before.copy_from_slice(row);
    }
    lines
}

fn differences(kind: u8, row: &[u8], before: &[u8], step: usize) -> Vec<u8> {
    let mut line = vec![kind];
    for (x, byte) in row.iter().enumerate() {
        let (left, corner) = if x < step { (0, 0) } else { (row[x - step], before[x - step]) };
        line.push(byte.wrapping_sub(guess(kind, left, before[x], corner)));
    }
    line
}

/// How far the differences of a line are from 0, all in all.
fn weight(line: &[u8]) -> u64 {
    line[1..].iter().map(|&byte| u64::from((byte as i8).unsigned_abs())).sum()
}

#[cfg(test)]
mod tests {
    use super::*;

    #[test]
    fn each_kind_is_undone() {
        let rows: [[u8; 6]; 2] = [[10, 200, 30, 12, 190, 35], [9, 255, 0, 128, 7, 31]];
        for kind in 0..KINDS {
            let mut lines = differences(kind, &rows[0], &[0; 6], 3);
            lines.extend(differences(kind, &rows[1], &rows[0], 3));
            assert_eq!(undone(&lines, 6, 3), Ok(rows.concat()));
        }
        assert_eq!(undone(&[5, 0, 0], 2, 1), Err(PngFault::Data));
    }

    #[test]
    fn the_nearest_is_the_first_of_equals() {
        assert_eq!(nearest(1, 2, 1), 2);
        assert_eq!(nearest(5, 5, 9), 5);
        assert_eq!(nearest(0, 10, 5), 5);
        assert_eq!(nearest(4, 6, 4), 6);
    }
}
