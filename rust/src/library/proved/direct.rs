//! The library, linked and called over the C ABI. Plans and books cross by value.
//!
//! Also an empty slice's pointer is not null, and no byte is read past its length.

use crate::second::values::*;

include!(concat!(env!("OUT_DIR"), "/direct.rs"));

/// An answer too large for registers, where its place is the first argument: compiled for
/// another processor, the library has it there as on x86-64.
#[allow(dead_code)]
fn in_place<T>(call: impl FnOnce(*mut T)) -> T {
    let mut place = std::mem::MaybeUninit::uninit();
    call(place.as_mut_ptr());
    unsafe { place.assume_init() }
}
