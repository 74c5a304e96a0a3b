//! The C names of libslipgrease.a over slices, with the reply numbers as the library gives them, for those who want just these.
//! This file alone has `unsafe`.
//!
//! A slice goes as a pointer and a length. A call reads and writes within the slices that it is lent and asks nothing else of its
//! caller, so that each function here is safe. Each is described under its name in the crate itself.
//!
//! A reply that is not looked at may be a refusal, which has written nothing, so the compiler warns of it:
//!
//! ```compile_fail
//! #![deny(unused_must_use)]
//! slipgrease::calls::encrypt(&[0; 240], &[0; 15], &mut [0; 16]);
//! ```
//!
//! ```
//! #![deny(unused_must_use)]
//! assert_eq!(slipgrease::calls::encrypt(&[0; 240], &[0; 15], &mut [0; 16]), 3);
//! ```

#![allow(missing_docs)]

use std::sync::atomic::{compiler_fence, Ordering};

/// Overwrites bytes with zeros that the compiler may not leave out, though nobody reads them.
pub(crate) fn wipe(bytes: &mut [u8]) {
    for byte in bytes {
        unsafe { std::ptr::write_volatile(byte, 0) };
    }
    compiler_fence(Ordering::SeqCst);
}

/// Makes of each C name a safe function over slices.
macro_rules! calls {
    ($($c_name:ident as $name:ident($($parameters:tt)*) -> $answer:ty;)*) => {$(
        #[must_use = "a refused call has written nothing"]
        pub fn $name($($parameters)*) -> $answer {
            call!($c_name -> $answer, () () $($parameters)*)
        }
    )*};
}

/// Takes the parameters one by one, collects C's own and what they are given, and in the end declares the C name and calls it.
macro_rules! call {
    ($c_name:ident -> $answer:ty, ($($own:tt)*) ($($given:tt)*)) => {{
        extern "C" {
            fn $c_name($($own)*) -> $answer;
        }
        unsafe { $c_name($($given)*) }
    }};
    ($c_name:ident -> $answer:ty, ($($own:tt)*) ($($given:tt)*) $read:ident: &[u8] $(, $($rest:tt)*)?) => {
        call!($c_name -> $answer, ($($own)* _: *const u8, _: usize,) ($($given)* $read.as_ptr(), $read.len(),) $($($rest)*)?)
    };
    ($c_name:ident -> $answer:ty, ($($own:tt)*) ($($given:tt)*) $filled:ident: &mut [u8] $(, $($rest:tt)*)?) => {
        call!($c_name -> $answer, ($($own)* _: *mut u8, _: usize,) ($($given)* $filled.as_mut_ptr(), $filled.len(),) $($($rest)*)?)
    };
    ($c_name:ident -> $answer:ty, ($($own:tt)*) ($($given:tt)*) $number:ident: u8 $(, $($rest:tt)*)?) => {
        call!($c_name -> $answer, ($($own)* _: u8,) ($($given)* $number,) $($($rest)*)?)
    };
    ($c_name:ident -> $answer:ty, ($($own:tt)*) ($($given:tt)*) $yes:ident: bool $(, $($rest:tt)*)?) => {
        call!($c_name -> $answer, ($($own)* _: bool,) ($($given)* $yes,) $($($rest)*)?)
    };
}

calls! {
    slipgrease_expand_key as expand_key(key: &[u8], schedule: &mut [u8]) -> u8;
    slipgrease_encrypt as encrypt(schedule: &[u8], input: &[u8], output: &mut [u8]) -> u8;
    slipgrease_decrypt as decrypt(schedule: &[u8], input: &[u8], output: &mut [u8]) -> u8;
    slipgrease_record_plain as record_plain(schedule: &[u8], input: &[u8], states: &mut [u8]) -> u8;
    slipgrease_encrypt_published as encrypt_published(
        schedule: &[u8], input: &[u8], output: &mut [u8], offsets: &[u8], step: u8, form: u8
    ) -> u8;
    slipgrease_encrypt_blocks as encrypt_blocks(
        schedule: &[u8], input: &[u8], output: &mut [u8], offsets: &[u8], step: u8, form: u8
    ) -> u8;
    slipgrease_encrypt_masked as encrypt_masked(
        schedule: &[u8], input: &[u8], output: &mut [u8], masks: &[u8], offsets: &[u8], step: u8, form: u8
    ) -> u8;
    slipgrease_record_masked as record_masked(
        schedule: &[u8], input: &[u8], masks: &[u8], offsets: &[u8], step: u8, states: &mut [u8]
    ) -> u8;
    slipgrease_decrypt_published as decrypt_published(
        schedule: &[u8], input: &[u8], output: &mut [u8], offsets: &[u8], step: u8
    ) -> u8;
    slipgrease_decrypt_masked as decrypt_masked(
        schedule: &[u8], input: &[u8], output: &mut [u8], masks: &[u8], offsets: &[u8], step: u8
    ) -> u8;
    slipgrease_record_masked_decryption as record_masked_decryption(
        schedule: &[u8], input: &[u8], masks: &[u8], offsets: &[u8], step: u8, states: &mut [u8]
    ) -> u8;
    slipgrease_read_sheet as read_sheet(sheet: &[u8], masks: &mut [u8]) -> u16;
    slipgrease_write_sheet as write_sheet(masks: &[u8], step: u8, sheet: &mut [u8]) -> u8;
    slipgrease_fitness as fitness(masks: &[u8]) -> u16;
    slipgrease_mask_count as mask_count(
        masks: &[u8], row: u8, byte: u8, low: u8, middle: u8, high: u8, pattern: u8
    ) -> u16;
    slipgrease_convert as convert(input: &[u8], output: &mut [u8], offset: u8) -> u8;
    slipgrease_wrap as wrap(schedule: &[u8], key_data: &[u8], wrapped: &mut [u8]) -> u8;
    slipgrease_unwrap as unwrap(schedule: &[u8], wrapped: &[u8], key_data: &mut [u8]) -> u8;
    slipgrease_wrap_masked as wrap_masked(schedule: &[u8], key_data: &[u8], wrapped: &mut [u8], offset: u8) -> u8;
    slipgrease_unwrap_masked as unwrap_masked(schedule: &[u8], wrapped: &[u8], key_data: &mut [u8], offset: u8) -> u8;
    slipgrease_scramble as scramble(packet: &[u8], packet_out: &mut [u8], pipes: &[u8], odd: bool) -> u8;
    slipgrease_descramble as descramble(packet: &[u8], packet_out: &mut [u8], pipes: &[u8]) -> u8;
    slipgrease_multiply as multiply(a: u8, b: u8) -> u8;
    slipgrease_inverse as inverse(x: u8) -> u8;
    slipgrease_logarithm as logarithm(x: u8) -> u16;
    slipgrease_power as power(n: u8) -> u16;
    slipgrease_masked_inverse as masked_inverse(x: u8, r: u8) -> u8;
    slipgrease_tower_inverse as tower_inverse(x: u8, r: u8) -> u8;
    slipgrease_tower_box as tower_box(label: u8, x: u8) -> u8;
    slipgrease_sort_reply as sort_reply(number: u8) -> u8;
}
