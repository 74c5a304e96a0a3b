//! The field and the S-box of FIPS 197 by their definitions: no table and no logarithm.

/// The product of two bytes as polynomials modulo 11b, by shifting and reducing.
pub const fn times(a: u8, b: u8) -> u8 {
    let (mut shifted, mut bits) = (a, b);
    let mut sum = 0;
    while bits > 0 {
        if bits & 1 == 1 {
            sum ^= shifted;
        }
        let carry = shifted >> 7;
        shifted = (shifted << 1) ^ (carry * 0x1b);
        bits >>= 1;
    }
    sum
}

/// x to the power n, by squaring.
pub fn raise(x: u8, n: u8) -> u8 {
    let mut square = x;
    let mut product = 1;
    for bit in 0..8 {
        if n >> bit & 1 == 1 {
            product = times(product, square);
        }
        square = times(square, square);
    }
    product
}

/// The inverse, and 00 for 00: x to the power 254.
pub fn inverse(x: u8) -> u8 {
    raise(x, 254)
}

/// Which power of 03 a byte is, by trying one after the other; 00 is none.
pub fn logarithm(x: u8) -> Option<u8> {
    (0..=254).find(|&n| raise(3, n) == x)
}

/// The S-box: the inverse, and then the affine map.
pub fn s_box(x: u8) -> u8 {
    affine(inverse(x))
}

/// The affine map bit by bit.
pub fn affine(b: u8) -> u8 {
    let bit = |i: u32| b >> (i % 8) & 1;
    let mapped = |i: u32| bit(i) ^ bit(i + 4) ^ bit(i + 5) ^ bit(i + 6) ^ bit(i + 7) ^ (0x63 >> i & 1);
    (0..8).fold(0, |sum, i| sum | mapped(i) << i)
}
