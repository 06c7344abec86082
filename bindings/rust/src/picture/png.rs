// A picture as the bytes of a PNG file: by a palette where 256 colours are enough, packed with the fixed codes of RFC 1951.

use std::collections::BTreeSet;

use super::Colour;

const SIGNATURE: &[u8] = b"\x89PNG\r\n\x1a\n";
/// The kinds of picture: three channels, or a place in the palette, a byte each.
const CHANNELS: u8 = 2;
const PALETTE: u8 = 3;
/// The filter of a row that is as it is.
const PLAIN: u8 = 0;

/// The file of a picture, its rows from the top; notes are a keyword and a text each, in ASCII.
pub fn file(width: usize, pixels: &[Colour], notes: &[(String, String)]) -> Vec<u8> {
    let colours: Vec<Colour> = pixels.iter().copied().collect::<BTreeSet<_>>().into_iter().collect();
    let few = colours.len() <= 256;
    let mut rows = Vec::new();
    for row in pixels.chunks_exact(width.max(1)) {
        rows.push(PLAIN);
        match few {
            true => {
                rows.extend(row.iter().map(|colour| colours.partition_point(|other| other < colour) as u8))
            }
            false => rows.extend(row.iter().flatten()),
        }
    }

    let height = pixels.len().checked_div(width).unwrap_or(0);
    let mut head = [width, height].map(|side| (side as u32).to_be_bytes()).concat();
    // Eight bits, the kind, the one packing, the one set of filters, not interlaced.
    head.extend([8, if few { PALETTE } else { CHANNELS }, 0, 0, 0]);

    let mut bytes = SIGNATURE.to_vec();
    chunk(&mut bytes, b"IHDR", &head);
    for (keyword, text) in notes {
        chunk(&mut bytes, b"tEXt", &[keyword.as_bytes(), &[0], text.as_bytes()].concat());
    }
    if few {
        chunk(&mut bytes, b"PLTE", colours.as_flattened());
    }
    chunk(&mut bytes, b"IDAT", &packed(&rows, rows.len().checked_div(height).unwrap_or(1)));
    chunk(&mut bytes, b"IEND", &[]);
    bytes
}

/// Length, name, contents, and the check over the last two.
fn chunk(bytes: &mut Vec<u8>, name: &[u8; 4], contents: &[u8]) {
    bytes.extend((contents.len() as u32).to_be_bytes());
    let from = bytes.len();
    bytes.extend(name);
    bytes.extend(contents);
    let check = crc32(&bytes[from..]);
    bytes.extend(check.to_be_bytes());
}

/// What ends a block.
const END: u32 = 256;
/// Lengths of a repetition, and how far back it may begin.
const SHORTEST: usize = 3;
const LONGEST: usize = 258;
const FARTHEST: usize = 32_768;

/// The stream of RFC 1950 around one block of RFC 1951: bytes, and repetitions of the byte before, of the row above, or of where the
/// next bytes were last seen, whichever is longest.
fn packed(bytes: &[u8], row: usize) -> Vec<u8> {
    let mut bits = Bits { bytes: vec![0x78, 0x01], held: 0, count: 0 };
    bits.put(1, 1); // the last block
    bits.put(1, 2); // with the fixed codes
    let mut seen = Seen::new();
    let mut at = 0;
    while at < bytes.len() {
        let backs = [1, row, at - seen.last(bytes, at).unwrap_or(at)];
        let backs = backs.into_iter().filter(|&back| 0 < back && back <= at.min(FARTHEST));
        let alike = |back: usize| {
            let pairs = bytes[at..].iter().zip(&bytes[at - back..]).take(LONGEST);
            pairs.take_while(|(one, other)| one == other).count()
        };
        let (length, back) = backs.map(|back| (alike(back), back)).max().unwrap_or((0, 0));
        let taken = if length < SHORTEST {
            bits.literal(bytes[at].into());
            1
        } else {
            bits.again(length, back);
            length
        };
        for place in at..at + taken {
            seen.put(bytes, place);
        }
        at += taken;
    }
    bits.literal(END);
    bits.flush();
    bits.bytes.extend(adler32(bytes).to_be_bytes());
    bits.bytes
}

/// Where four bytes were last seen; another four may have taken their place.
struct Seen(Vec<Option<usize>>);

impl Seen {
    fn new() -> Seen {
        Seen(vec![None; 1 << 14])
    }

    fn slot(bytes: &[u8], at: usize) -> Option<usize> {
        let four = bytes.get(at..at + 4)?.try_into().ok()?;
        Some((u32::from_le_bytes(four).wrapping_mul(0x9e37_79b1) >> 18) as usize)
    }

    fn last(&self, bytes: &[u8], at: usize) -> Option<usize> {
        self.0[Seen::slot(bytes, at)?]
    }

    fn put(&mut self, bytes: &[u8], at: usize) {
        if let Some(slot) = Seen::slot(bytes, at) {
            self.0[slot] = Some(at);
        }
    }
}

/// Bits put one behind the other, from the lowest of each byte on.
struct Bits {
    bytes: Vec<u8>,
    held: u32,
    count: u32,
}

impl Bits {
    fn put(&mut self, value: u32, count: u32) {
        self.held |= value << self.count;
        self.count += count;
        while self.count >= 8 {
            self.bytes.push(self.held as u8);
            self.held >>= 8;
            self.count -= 8;
        }
    }

    fn flush(&mut self) {
        if self.count > 0 {
            self.put(0, 8 - self.count);
        }
    }

    /// A code begins with its highest bit, unlike a number.
    fn code(&mut self, code: u32, count: u32) {
        self.put(code.reverse_bits() >> (32 - count), count);
    }

    /// A byte, the end of the block, or a class of lengths, by the fixed codes.
    fn literal(&mut self, symbol: u32) {
        match symbol {
            0..=143 => self.code(0x30 + symbol, 8),
            144..=255 => self.code(0x190 + symbol - 144, 9),
            256..=279 => self.code(symbol - 256, 7),
            _ => self.code(0xc0 + symbol - 280, 8),
        }
    }

    /// So many bytes as they were so far back.
    fn again(&mut self, length: usize, back: usize) {
        let over = (length - SHORTEST) as u32;
        if length == LONGEST {
            self.literal(285);
        } else if over < 8 {
            self.literal(257 + over);
        } else {
            // Four classes to each number of further bits.
            let further = over.ilog2() - 2;
            self.literal(257 + 4 * further + (over >> further));
            self.put(over & ((1 << further) - 1), further);
        }
        let over = (back - 1) as u32;
        if over < 4 {
            self.code(over, 5);
        } else {
            // Two classes to each.
            let further = over.ilog2() - 1;
            self.code(2 * further + (over >> further), 5);
            self.put(over & ((1 << further) - 1), further);
        }
    }
}

/// The check of a chunk (RFC 2083, chapter 15).
fn crc32(bytes: &[u8]) -> u32 {
    !bytes.iter().fold(!0, |check, &byte| {
        (0..8).fold(check ^ u32::from(byte), |check, _| (check >> 1) ^ (0xedb8_8320 * (check & 1)))
    })
}

/// The check of the packed rows (RFC 1950).
fn adler32(bytes: &[u8]) -> u32 {
    let (low, high) = bytes.iter().fold((1, 0), |(low, high), &byte| {
        let low = (low + u32::from(byte)) % 65_521;
        (low, (high + low) % 65_521)
    });
    high << 16 | low
}
