//! Elements as they lie in registers, and lanes: the numbers that channels work with.

use std::ops::{BitAnd, BitOr, BitXor, Not};

/// An element type as the register file holds it.
pub trait Element: 'static {
    const SIZE: usize;
    const LEAST: i64;
    const GREATEST: i64;
    /// The value of an element's bytes.
    fn value(bytes: &[u8]) -> i64;
    /// Writes a value modulo the type's width.
    fn put(value: i64, bytes: &mut [u8]);
}

macro_rules! elements {
    ($($element:ty)*) => {$(
        impl Element for $element {
            const SIZE: usize = size_of::<$element>();
            const LEAST: i64 = <$element>::MIN as i64;
            const GREATEST: i64 = <$element>::MAX as i64;
            #[inline]
            fn value(bytes: &[u8]) -> i64 {
                <$element>::from_le_bytes(bytes.try_into().expect("a whole element")) as i64
            }
            #[inline]
            fn put(value: i64, bytes: &mut [u8]) {
                bytes.copy_from_slice(&(value as $element).to_le_bytes());
            }
        }
    )*};
}
elements!(u32 i32 u16 i16 u8 i8);

/// A channel's value in an operation: in 64 bits it is always exact, in 32 bits it is exact if
/// it fits and else taken modulo 2^32.
pub trait Lane:
    Copy
    + Ord
    + Into<i64>
    + Not<Output = Self>
    + BitAnd<Output = Self>
    + BitOr<Output = Self>
    + BitXor<Output = Self>
    + 'static
{
    /// The value modulo the lane's width.
    fn of(value: i64) -> Self;
    /// The nearest value that the lane can hold.
    fn nearest(value: i64) -> Self;
    fn negated(self) -> Self;
    fn absolute(self) -> Self;
    fn plus(self, other: Self) -> Self;
    fn times(self, other: Self) -> Self;
    /// Half of the sum and one, rounded down. The sum must fit.
    fn average(self, other: Self) -> Self;
    fn shifted_up(self, count: Self) -> Self;
    /// Shifted down as an unsigned number.
    fn shifted_down(self, count: Self) -> Self;
    /// Shifted down as a signed number.
    fn signed_shifted_down(self, count: Self) -> Self;
}

macro_rules! lanes {
    ($($lane:ty, $unsigned:ty;)*) => {$(
        impl Lane for $lane {
            #[inline]
            fn of(value: i64) -> Self {
                value as $lane
            }
            #[inline]
            fn nearest(value: i64) -> Self {
                value.clamp(<$lane>::MIN as i64, <$lane>::MAX as i64) as $lane
            }
            #[inline]
            fn negated(self) -> Self {
                self.wrapping_neg()
            }
            #[inline]
            fn absolute(self) -> Self {
                self.wrapping_abs()
            }
            #[inline]
            fn plus(self, other: Self) -> Self {
                self.wrapping_add(other)
            }
            #[inline]
            fn times(self, other: Self) -> Self {
                self.wrapping_mul(other)
            }
            #[inline]
            fn average(self, other: Self) -> Self {
                (self + other + 1) >> 1
            }
            #[inline]
            fn shifted_up(self, count: Self) -> Self {
                self << (count & 31)
            }
            #[inline]
            fn shifted_down(self, count: Self) -> Self {
                (self as $unsigned >> (count & 31)) as $lane
            }
            #[inline]
            fn signed_shifted_down(self, count: Self) -> Self {
                self >> (count & 31)
            }
        }
    )*};
}
lanes!(i32, u32; i64, u64;);
