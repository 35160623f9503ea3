//! Writes zlib streams, by fixed codes and by repetitions of what came before.

use super::sums::adler32;

const SHORTEST: usize = 3;
const LONGEST: usize = 258;
const FARTHEST: usize = 32768;
const END_OF_BLOCK: usize = 256;
const HASH_BITS: u32 = 15;

/// Bits from the lowest of the first byte on.
#[derive(Default)]
struct Bits {
    bytes: Vec<u8>,
    pending: u64,
    count: u32,
}

impl Bits {
    /// Writes a number of so many bits, at most 32, the lowest one first.
    fn number(&mut self, number: usize, bits: u32) {
        self.pending |= (number as u64) << self.count;
        self.count += bits;
        while self.count >= 8 {
            self.bytes.push(self.pending as u8);
            self.pending >>= 8;
            self.count -= 8;
        }
    }

    /// Writes a word of a code, the highest bit first.
    fn word(&mut self, word: usize, bits: u32) {
        self.number((word as u32).reverse_bits() as usize >> (32 - bits), bits);
    }

    /// Writes the word for a byte, a length or the end of a block.
    fn value(&mut self, value: usize) {
        match value {
            0..=143 => self.word(0x30 + value, 8),
            144..=255 => self.word(0x190 + value - 144, 9),
            256..=279 => self.word(value - 256, 7),
            _ => self.word(0xc0 + value - 280, 8),
        }
    }

    fn repetition(&mut self, length: usize, distance: usize) {
        if length == LONGEST {
            self.value(285);
        } else {
            let (code, more) = halves_of_halves(length - SHORTEST, 4);
            self.value(257 + code);
            self.number((length - SHORTEST) % (1 << more), more);
        }
        let (code, more) = halves_of_halves(distance - 1, 2);
        self.word(code, 5);
        self.number((distance - 1) % (1 << more), more);
    }

    fn bytes(mut self) -> Vec<u8> {
        self.number(0, 7);
        self.bytes
    }
}

/// The code of a number, and how many bits are added to it, where so many codes share each number of bits: those that
/// follow on the code for a power of two say the next bits of the number.
fn halves_of_halves(number: usize, codes: usize) -> (usize, u32) {
    if number < 2 * codes {
        return (number, 0);
    }
    let more = number.ilog2() - codes.ilog2();
    (codes * more as usize + (number >> more), more)
}

/// A number for the bytes at the front of a repetition.
fn hash(front: &[u8]) -> usize {
    let number = front.iter().fold(0, |number: u32, &byte| number << 8 | u32::from(byte));
    (number.wrapping_mul(0x9e37_79b1) >> (32 - HASH_BITS)) as usize
}

/// How many bytes are the same from two indexes on, up to the longest repetition.
fn same(bytes: &[u8], index: usize, other: usize) -> usize {
    bytes[index..].iter().zip(&bytes[other..]).take(LONGEST).take_while(|(one, two)| one == two).count()
}

/// A zlib stream of the bytes.
pub fn deflate(bytes: &[u8]) -> Vec<u8> {
    let mut bits = Bits::default();
    bits.number(0x0178, 16);
    // One block, the last one, of fixed codes.
    bits.number(0b011, 3);
    let mut last = vec![None; 1 << HASH_BITS];
    let mut index = 0;
    while index < bytes.len() {
        let before = bytes.get(index..index + SHORTEST).and_then(|front| last[hash(front)].replace(index));
        let near = before.filter(|before| index - before <= FARTHEST);
        match near.map(|before| (before, same(bytes, index, before))) {
            Some((before, length)) if length >= SHORTEST => {
                bits.repetition(length, index - before);
                index += length;
            }
            _ => {
                bits.value(bytes[index].into());
                index += 1;
            }
        }
    }
    bits.value(END_OF_BLOCK);
    let mut stream = bits.bytes();
    stream.extend_from_slice(&adler32(bytes).to_be_bytes());
    stream
}

#[cfg(test)]
mod tests {
    use super::super::inflate::inflate;
    use super::*;

    #[test]
    fn what_is_written_is_read() {
        let texts: [Vec<u8>; 5] = [
            Vec::new(),
            b"a".to_vec(),
            (0..=255).collect(),
            vec![7; 1000],
            (0_u64..200_000).map(|n| (n * n / 777 % 251) as u8).collect(),
        ];
        for text in texts {
            assert_eq!(inflate(&deflate(&text), text.len()), Ok(text));
        }
    }

    #[test]
    fn each_length_and_many_distances_are_read() {
        for length in 1..=300 {
            let text = [&b"xyz"[..], &vec![b'.'; length], b"xyz"].concat();
            assert_eq!(inflate(&deflate(&text), text.len()), Ok(text));
        }
        for distance in (3..FARTHEST + 10).step_by(331) {
            let between = (0..distance).map(|n| (n * 7 + n / 251) as u8);
            let text: Vec<u8> = [1, 2, 255, 254].into_iter().chain(between).chain([1, 2, 255, 254]).collect();
            assert_eq!(inflate(&deflate(&text), text.len()), Ok(text));
        }
    }

    #[test]
    fn repetitions_are_short() {
        assert!(deflate(&vec![0; 1 << 20]).len() < 12_000);
    }
}
