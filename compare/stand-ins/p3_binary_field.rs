// Stands for the crate p3_binary_field: the trait of levels, and the levels that the cases name. An element is its list of coordinates, each
// 0 or 1, and a sum is the exclusive-or. Products are written from their definitions, apart from the proved code and from reference/.
use p3_field::Field;
use std::fmt::Debug;
use std::iter::{Product, Sum};
use std::ops::{Add, AddAssign, Mul, MulAssign, Sub, SubAssign};
use std::sync::OnceLock;

// The widest level here has 256 coordinates.
const MOST_BYTES: usize = 32;

pub trait TowerLevel: Field {
    // Elements have 2^LOG_BITS coordinates.
    const LOG_BITS: usize;
    const NUM_BYTES: usize = if Self::LOG_BITS < 3 {
        1
    } else {
        1 << (Self::LOG_BITS - 3)
    };

    // What a doubling of this level multiplies by.
    const GENERATOR: Self;

    fn coordinate(&self, j: usize) -> bool;
    fn from_coordinates(coordinate: &mut impl FnMut(usize) -> bool) -> Self;

    // Bit b of byte j, the least first, is coordinate 8j + b.
    fn into_bytes(self) -> impl IntoIterator<Item = u8> {
        let mut bytes = [0; MOST_BYTES];
        for j in 0..1 << Self::LOG_BITS {
            bytes[j / 8] |= u8::from(self.coordinate(j)) << (j % 8);
        }
        bytes.into_iter().take(Self::NUM_BYTES)
    }

    fn from_le_byte_iter(from: impl Iterator<Item = u8>) -> Self {
        let mut bytes = [0; MOST_BYTES];
        for (byte, from) in bytes.iter_mut().zip(from) {
            *byte = from;
        }
        Self::from_coordinates(&mut |j| bytes[j / 8] >> (j % 8) & 1 == 1)
    }
}

// The operators of a level, from functions `sum` and `product` of it.
macro_rules! operators {
    ([$($generics:tt)*] $level:ty) => {
        impl<$($generics)*> Add for $level {
            type Output = Self;
            fn add(self, other: Self) -> Self {
                self.sum_with(other)
            }
        }
        // Two is zero, so a difference is the sum.
        impl<$($generics)*> Sub for $level {
            type Output = Self;
            fn sub(self, other: Self) -> Self {
                self.sum_with(other)
            }
        }
        impl<$($generics)*> Mul for $level {
            type Output = Self;
            fn mul(self, other: Self) -> Self {
                self.product_with(other)
            }
        }
        impl<$($generics)*> AddAssign for $level {
            fn add_assign(&mut self, other: Self) {
                *self = *self + other;
            }
        }
        impl<$($generics)*> SubAssign for $level {
            fn sub_assign(&mut self, other: Self) {
                *self = *self - other;
            }
        }
        impl<$($generics)*> MulAssign for $level {
            fn mul_assign(&mut self, other: Self) {
                *self = *self * other;
            }
        }
        impl<$($generics)*> Sum for $level {
            fn sum<I: Iterator<Item = Self>>(values: I) -> Self {
                values.fold(Self::ZERO, |sum, value| sum + value)
            }
        }
        impl<$($generics)*> Product for $level {
            fn product<I: Iterator<Item = Self>>(values: I) -> Self {
                values.fold(Self::ONE, |product, value| product * value)
            }
        }
    };
}

#[derive(Clone, Copy, Debug, Default, PartialEq, Eq)]
pub struct Bit(bool);

impl Bit {
    fn sum_with(self, other: Self) -> Self {
        Bit(self.0 != other.0)
    }

    fn product_with(self, other: Self) -> Self {
        Bit(self.0 && other.0)
    }
}

operators!([] Bit);

impl Field for Bit {
    type Packing = Self;
    const ZERO: Self = Bit(false);
    const ONE: Self = Bit(true);
}

impl TowerLevel for Bit {
    const LOG_BITS: usize = 0;
    const GENERATOR: Self = Bit(true);

    fn coordinate(&self, _j: usize) -> bool {
        self.0
    }

    fn from_coordinates(coordinate: &mut impl FnMut(usize) -> bool) -> Self {
        Bit(coordinate(0))
    }
}

// Two elements of a level: the coordinates of the low one, then those of the high one.
#[derive(Clone, Copy, Debug, Default, PartialEq, Eq)]
pub struct Doubling<L> {
    low: L,
    high: L,
}

impl<L: TowerLevel> Doubling<L> {
    fn sum_with(self, other: Self) -> Self {
        Doubling {
            low: self.low + other.low,
            high: self.high + other.high,
        }
    }

    fn product_with(self, other: Self) -> Self {
        let (a, b, c, e) = (self.low, self.high, other.low, other.high);
        Doubling {
            low: a * c + b * e,
            high: a * e + b * c + L::GENERATOR * (b * e),
        }
    }
}

operators!([L: TowerLevel] Doubling<L>);

impl<L: TowerLevel> Field for Doubling<L> {
    type Packing = Self;
    const ZERO: Self = Doubling {
        low: L::ZERO,
        high: L::ZERO,
    };
    const ONE: Self = Doubling {
        low: L::ONE,
        high: L::ZERO,
    };
}

impl<L: TowerLevel> TowerLevel for Doubling<L> {
    const LOG_BITS: usize = L::LOG_BITS + 1;
    const GENERATOR: Self = Doubling {
        low: L::ZERO,
        high: L::ONE,
    };

    fn coordinate(&self, j: usize) -> bool {
        let half = 1 << L::LOG_BITS;
        if j < half {
            self.low.coordinate(j)
        } else {
            self.high.coordinate(j - half)
        }
    }

    fn from_coordinates(coordinate: &mut impl FnMut(usize) -> bool) -> Self {
        let half = 1 << L::LOG_BITS;
        let low = L::from_coordinates(coordinate);
        let high = L::from_coordinates(&mut |j| coordinate(half + j));
        Doubling { low, high }
    }
}

// A table of all products of two bytes.
fn products(product: impl Fn(u8, u8) -> u8) -> Vec<[u8; 256]> {
    (0..=255)
        .map(|x| std::array::from_fn(|y| product(x, y as u8)))
        .collect()
}

// A byte as an element of three doublings over the bit. Products are looked up in a table that those doublings fill.
#[derive(Clone, Copy, Debug, Default, PartialEq, Eq)]
pub struct TowerByte(u8);

impl TowerByte {
    fn sum_with(self, other: Self) -> Self {
        TowerByte(self.0 ^ other.0)
    }

    fn product_with(self, other: Self) -> Self {
        type Eight = Doubling<Doubling<Doubling<Bit>>>;
        static TABLE: OnceLock<Vec<[u8; 256]>> = OnceLock::new();
        let eight = |byte| Eight::from_le_byte_iter(std::iter::once(byte));
        let table = TABLE.get_or_init(|| {
            products(|x, y| {
                (eight(x) * eight(y))
                    .into_bytes()
                    .into_iter()
                    .next()
                    .unwrap()
            })
        });
        TowerByte(table[usize::from(self.0)][usize::from(other.0)])
    }
}

operators!([] TowerByte);

impl Field for TowerByte {
    type Packing = Self;
    const ZERO: Self = TowerByte(0);
    const ONE: Self = TowerByte(1);
}

impl TowerLevel for TowerByte {
    const LOG_BITS: usize = 3;
    const GENERATOR: Self = TowerByte(0x10);

    fn coordinate(&self, j: usize) -> bool {
        self.0 >> j & 1 == 1
    }

    fn from_coordinates(coordinate: &mut impl FnMut(usize) -> bool) -> Self {
        TowerByte((0..8).fold(0, |byte, j| byte | u8::from(coordinate(j)) << j))
    }
}

// A byte as a polynomial over the bit modulo X^8 + X^4 + X^3 + X + 1 (FIPS 197).
#[derive(Clone, Copy, Debug, Default, PartialEq, Eq)]
pub struct PolynomialByte(u8);

impl PolynomialByte {
    fn sum_with(self, other: Self) -> Self {
        PolynomialByte(self.0 ^ other.0)
    }

    fn product_with(self, other: Self) -> Self {
        static TABLE: OnceLock<Vec<[u8; 256]>> = OnceLock::new();
        // The sum of the left factor times X^i over the set coefficients i of the right one, the highest first.
        let product = |x: u8, y: u8| {
            (0..8).rev().fold(0u8, |sum, i| {
                let shifted = sum << 1 ^ if sum & 0x80 != 0 { 0x1b } else { 0 };
                shifted ^ if y >> i & 1 == 1 { x } else { 0 }
            })
        };
        let table = TABLE.get_or_init(|| products(product));
        PolynomialByte(table[usize::from(self.0)][usize::from(other.0)])
    }
}

operators!([] PolynomialByte);

impl Field for PolynomialByte {
    type Packing = Self;
    const ZERO: Self = PolynomialByte(0);
    const ONE: Self = PolynomialByte(1);
}

impl TowerLevel for PolynomialByte {
    const LOG_BITS: usize = 3;
    const GENERATOR: Self = PolynomialByte(1);

    fn coordinate(&self, j: usize) -> bool {
        self.0 >> j & 1 == 1
    }

    fn from_coordinates(coordinate: &mut impl FnMut(usize) -> bool) -> Self {
        PolynomialByte((0..8).fold(0, |byte, j| byte | u8::from(coordinate(j)) << j))
    }
}
