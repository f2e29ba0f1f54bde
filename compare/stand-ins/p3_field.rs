// Stands for the crate p3_field: what an element can do that the copied files ask of it. A packing here holds one element.
use std::fmt::Debug;
use std::iter::{Product, Sum};
use std::ops::{Add, AddAssign, Mul, MulAssign, Sub, SubAssign};

pub trait Field:
    Copy
    + Eq
    + Debug
    + Default
    + Send
    + Sync
    + 'static
    + Add<Output = Self>
    + AddAssign
    + Sub<Output = Self>
    + SubAssign
    + Mul<Output = Self>
    + MulAssign
    + Sum
    + Product
{
    type Packing: PackedValue<Value = Self>
        + Add<Output = Self::Packing>
        + Sub<Output = Self::Packing>
        + Mul<Output = Self::Packing>;

    const ZERO: Self;
    const ONE: Self;

    fn square(&self) -> Self {
        *self * *self
    }

    fn zero_vec(len: usize) -> Vec<Self> {
        vec![Self::ZERO; len]
    }
}

pub trait PackedValue: Copy {
    type Value;

    fn broadcast(value: Self::Value) -> Self;
    fn pack_slice_with_suffix(values: &[Self::Value]) -> (&[Self], &[Self::Value]);
    fn pack_slice_with_suffix_mut(values: &mut [Self::Value]) -> (&mut [Self], &mut [Self::Value]);
}

impl<F: Field> PackedValue for F {
    type Value = F;

    fn broadcast(value: F) -> F {
        value
    }

    fn pack_slice_with_suffix(values: &[F]) -> (&[F], &[F]) {
        (values, &[])
    }

    fn pack_slice_with_suffix_mut(values: &mut [F]) -> (&mut [F], &mut [F]) {
        (values, &mut [])
    }
}
