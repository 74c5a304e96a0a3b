//! The colours of a picture. On each of them its writing is read: a test holds every cell to a contrast of 4.5 to 1.

/// What is written, and what is written where nothing is to be seen.
pub const INK: &str = "#222222";
pub const PALE_INK: &str = "#6e6e6e";

/// The lines of a hatched cell.
pub const HATCH: &str = "#d0d0d0";

/// A grey for the first digit 0, and fifteen hues of one lightness for the others, so that 0 and f are told apart.
const HUES: [[u8; 3]; 16] = [
    [0xa8, 0xa8, 0xa8],
    [0xff, 0x8d, 0x8d],
    [0xfe, 0x91, 0x64],
    [0xe4, 0xa0, 0x4b],
    [0xc1, 0xae, 0x43],
    [0x97, 0xba, 0x51],
    [0x63, 0xc2, 0x6f],
    [0x03, 0xc5, 0x98],
    [0x07, 0xc2, 0xbc],
    [0x0d, 0xbf, 0xd6],
    [0x10, 0xbc, 0xef],
    [0x5a, 0xb4, 0xff],
    [0x96, 0xa9, 0xff],
    [0xcc, 0x98, 0xfa],
    [0xf4, 0x89, 0xd8],
    [0xff, 0x89, 0xb0],
];

/// What a report has where triples are uneven: a hue for the rows that a fit sheet has even, and a paler grey for row 5.
pub const UNEVEN: [u8; 3] = [0xe8, 0x70, 0x2a];
pub const UNEVEN_ANYWAY: [u8; 3] = [0xb4, 0xb4, 0xb4];

/// The hue of the first digit, from half light to full by the second; 00 is white.
pub fn colour(byte: u8) -> String {
    match byte {
        0 => shade([0xff; 3], 0, 1),
        _ => shade(HUES[usize::from(byte >> 4)], 16 + u32::from(byte & 15), 31),
    }
}

/// So much of a hue; none of it is white.
pub fn shade(hue: [u8; 3], depth: u32, full: u32) -> String {
    let [red, green, blue] = hue.map(|part| 255 - (255 - u32::from(part)) * depth / full);
    format!("#{red:02x}{green:02x}{blue:02x}")
}
