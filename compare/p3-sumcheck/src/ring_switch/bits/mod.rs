// Not part of the published crate p3-sumcheck: this file stands for its mod.rs. The six other files of this folder are copied from
// p3-sumcheck 0.8.0 without a change. The functions below show what only this module sees.
pub mod basis;
pub(crate) mod equality;
pub mod packing;
pub(crate) mod products;
pub mod reduction;
pub mod tensor;

pub(crate) use crate::bits_transcript as transcript;

use p3_binary_field::TowerLevel;
use reduction::BitRingSwitch;
use tensor::BitTensor;

// How many leading coordinates select the slot, and the address that they spell.
pub fn fixed_prefix<EF: TowerLevel>(reduction: &BitRingSwitch<EF>) -> (usize, usize) {
    reduction.fixed_prefix()
}

// The sum of the weights of the coordinates that `x` has set, and that of those that `scale` times `x` has set.
pub fn coordinate_sums<EF: TowerLevel>(weights: &[EF], scale: EF, x: EF) -> (EF, EF) {
    let sums = basis::CoordinateSums::<EF, EF>::new(weights);
    let mut scaled = sums.clone();
    equality::scaled_sums_into(&mut scaled, &sums, scale);
    let mut image = [EF::ZERO];
    scaled.apply_into(&[x], &mut image);
    (sums.sum(x), image[0])
}

// The outer and the inner factor of a point's equality table, and the entry before each block.
pub fn factored_equality<EF: TowerLevel>(
    point: &[EF],
    log_block: usize,
) -> (Vec<EF>, Vec<EF>, Vec<EF>) {
    let table = equality::FactoredEquality::new(point, log_block);
    let before = (0..table.outer().len())
        .map(|block| table.before_block(block))
        .collect();
    (table.outer().to_vec(), table.inner().to_vec(), before)
}

// The sum of the exterior products of two lists, formed twice with one scratch.
pub fn sum_of_products<EF: TowerLevel>(left: &[EF], right: &[EF]) -> [BitTensor<EF>; 2] {
    let factors = products::LeftFactors::new(left);
    let mut scratch = None;
    [
        factors.sum(right, &mut scratch),
        factors.sum(right, &mut scratch),
    ]
}
