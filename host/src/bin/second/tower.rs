//! The tower of document 000 by its definition, without its tables: halves of four bits, and pairs of them for bytes.

/// The product of two halves: the whole of it, and then x^4 + x + 1 taken away from above.
const fn half(a: u8, b: u8) -> u8 {
    let mut product = 0;
    let mut bit = 0;
    while bit < 4 {
        product ^= (a << bit) * (b >> bit & 1);
        bit += 1;
    }
    while bit < 7 {
        let above = 10 - bit;
        product ^= (0x13 << (above - 4)) * (product >> above & 1);
        bit += 1;
    }
    product
}

/// The product of two pairs h x + l, where x^2 is x + {e}.
const fn pair(a: u8, b: u8) -> u8 {
    let (ah, al, bh, bl) = (a >> 4, a & 15, b >> 4, b & 15);
    let square = half(ah, bh);
    (square ^ half(ah, bl) ^ half(al, bh)) << 4 | (half(al, bl) ^ half(square, 0xe))
}

const fn power(t: u8, n: u8) -> u8 {
    let mut product = 1;
    let mut made = 0;
    while made < n {
        product = pair(product, t);
        made += 1;
    }
    product
}

/// What x of FIPS 197's field can become: the first pair at which its modulus, x^8 + x^4 + x^3 + x + 1, is 0. There are eight.
const fn root() -> u8 {
    let mut t = 0;
    while power(t, 8) ^ power(t, 4) ^ power(t, 3) ^ t ^ 1 != 0 {
        t += 1;
    }
    t
}

/// The pair of each byte: the sum of the root's powers over the bits that are set.
const PAIRS: [u8; 256] = {
    let root = root();
    let mut pairs = [0; 256];
    let mut byte = 1;
    while byte < 256 {
        let mut bit = 0;
        while bit < 8 {
            pairs[byte] ^= power(root, bit) * (byte >> bit & 1) as u8;
            bit += 1;
        }
        byte += 1;
    }
    pairs
};

/// The inverse of a byte: that of its pair, its power 254, and 00 for 00.
pub fn inverse(byte: u8) -> u8 {
    let wanted = power(PAIRS[usize::from(byte)], 254);
    PAIRS.iter().position(|&pair| pair == wanted).map_or(0, |byte| byte as u8)
}

#[cfg(test)]
mod tests {
    use super::*;

    /// x times x^3 is x + 1, no half is a root of x^2 + x + {e}, and every byte but 00 has its inverse.
    #[test]
    fn the_tower_is_a_field() {
        assert_eq!(half(2, 8), 3);
        assert!((0..16).all(|h| half(h, h) ^ h ^ 0xe != 0));
        assert!((1..=255).all(|byte| pair(PAIRS[byte], power(PAIRS[byte], 254)) == 1));
    }
}
