//! Key wrap as RFC 3394 writes it, over the cipher of this program. A is the register, r[0] to r[n - 1] are the RFC's R[1] to R[n].

use crate::cipher::{decrypt, encrypt, Boxes};

/// Eight bytes: the register, or a part of the key data.
pub type Value = [u8; 8];

/// The initial value of the register, 2.2.3.1.
pub const INITIAL: Value = [0xa6; 8];

/// What six rounds over all values make of them and an initial value, 2.2.1.
pub fn wrapped(boxes: &Boxes, schedule: &[u8], initial: Value, key_data: &[u8]) -> Vec<u8> {
    let (mut a, mut r) = (initial, values(key_data));
    let n = r.len();
    for j in 0..=5 {
        for i in 1..=n {
            let b = encrypt(boxes, schedule, &block(a, r[i - 1]));
            a = xored(first(&b), n * j + i);
            r[i - 1] = last(&b);
        }
    }
    [a.to_vec(), r.concat()].concat()
}

/// The register and the key data that the same rounds backwards give, 2.2.2.
pub fn unwrapped(boxes: &Boxes, schedule: &[u8], wrapped: &[u8]) -> (Value, Vec<u8>) {
    let mut r = values(wrapped);
    let mut a = r.remove(0);
    let n = r.len();
    for j in (0..=5).rev() {
        for i in (1..=n).rev() {
            let b = decrypt(boxes, schedule, &block(xored(a, n * j + i), r[i - 1]));
            a = first(&b);
            r[i - 1] = last(&b);
        }
    }
    (a, r.concat())
}

fn values(bytes: &[u8]) -> Vec<Value> {
    bytes.chunks(8).map(|value| value.try_into().expect("whole values")).collect()
}

fn block(a: Value, r: Value) -> [u8; 16] {
    std::array::from_fn(|i| if i < 8 { a[i] } else { r[i - 8] })
}

fn first(block: &[u8; 16]) -> Value {
    std::array::from_fn(|i| block[i])
}

fn last(block: &[u8; 16]) -> Value {
    std::array::from_fn(|i| block[8 + i])
}

/// A value with a counter of 64 bits xored to it, the highest byte first.
fn xored(a: Value, t: usize) -> Value {
    (u64::from_be_bytes(a) ^ t as u64).to_be_bytes()
}
