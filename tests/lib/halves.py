"""A source in Rattle with items of all kinds."""
HALVES = '''//! Halves.
#![tactic(auto)]

/// What is halved at most.
pub const MAX: [u32; 1] = [64];
use low::{Size, Shape};
ghost use Rattle.low.specs.Sizes.{
    size,
    shape,
};

/// A half, which has
/// no rest.
#[derive(Clone,
    Copy)]
#[repr(C)]
pub(crate) struct Half<T> {
    /// A comment, with a comma.
    pub(crate) number: HashMap<u32, T>,
    pub call: fn(u32) -> u32, // of a number
    pub ghost even: { number < 64 } by { small, large },
}

pub struct Pair(pub u8, &'static str);
struct Unit;

/// What a half is.
pub enum Kind {
    /// Of this many bytes, {
    #[error("a { and a ,")]
    Sized { bytes: Vec<u8>, more: u8 },
    Named(u8, u8),
    None,
}

impl<T: Copy> Half<T> {
    /// Returns the half, { rounded
    /// down.
    pub fn of(number: u32, (low, high): (u32, [u8; 3])) -> Result<Half<T>, Fault<T>>
    where
        T: Copy,
        requires { number < 64 }
        // What it gives.
        ensures half { let double = 2 in
            result.number ≡ number / double }
    {
        let brace = '{';
        fn inner() {}
        Half { number: number / 2 }
    }

    /// Whether it is even.
    pub const fn is_even(&self) -> bool { true }
    /// Whether it is even.
    pub fn parity(&self) -> u32 { 1 }

    #[inline]
    const fn text(&self) -> &str {
        "ensures { a text }"
    }

    ghost invariant = { λ h. record { small : h.number < 64; large : ⊤ } };
}

/// Takes halves.
pub trait Halves {
    /// Bytes of a half.
    fn put(&mut self, codes: [u8; 3])
        ensures { kept }
    ;
    fn give(&self) -> bool { false }
}

/// So it does.
#[unsafe(no_mangle)]
pub extern "C" fn apart() {}
mod inner {
    fn within() {}
}
'''
