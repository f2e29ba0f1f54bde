// Cells per second of the reduction: the proved Rattle code against the same algorithms in plain Rust, in one run.
mod algorithms;
#[allow(dead_code)]
mod levels;

use algorithms::{FactoredEquality, LOG_BLOCK, Scratch};
use levels::{Full, Level, PolynomialByte, TowerByte};
use std::hint::black_box;
use std::time::{Duration, Instant};

// The operations of the Rattle library at a level. It lends memory as Rust does: a pointer, and a length in elements.
trait Rattle: Level {
    fn pack(bits: &[u8], elements: &mut [Self]);
    fn factor(outer: &mut [Self], inner: &mut [Self], point: &[Self]);
    fn tensor(values: &[Self], equality: &FactoredEquality<Self>, rows: &mut [Self], scratch: &mut [Self]);
    fn carry(values: &[Self], equality: &FactoredEquality<Self>, kept: usize, shifted: &mut [Self], rows: &mut [Self], scratch: &mut [Self]);
    fn last(values: &[Self], equality: &FactoredEquality<Self>, kept: usize, rows: &mut [Self]);
    fn weights(table: &mut [Self], equality: &FactoredEquality<Self>, eq_batch: &[Self], stepping: Option<(usize, Self)>, scratch: &mut [Self]);
}

#[link(name = "bench_reduction", kind = "static")]
unsafe extern "C" {}

macro_rules! rattle {
    ($level:ty, $pack:ident, $factor:ident, $tensor:ident, $carry:ident, $last:ident, $weights:ident, $challenged:ident) => {
        unsafe extern "C" {
            fn $pack(bits: *const u8, n: usize, elements: *mut $level, m: usize) -> usize;
            fn $factor(outer: *mut $level, o: usize, inner: *mut $level, i: usize, point: *const $level, n: usize);
            fn $tensor(
                values: *const $level, n: usize, outer: *const $level, o: usize, inner: *const $level, i: usize,
                rows: *mut $level, d: usize, scratch: *mut $level, s: usize,
            );
            fn $carry(
                values: *const $level, n: usize, outer: *const $level, o: usize, inner: *const $level, i: usize, kept: usize,
                shifted: *mut $level, j: usize, rows: *mut $level, d: usize, scratch: *mut $level, s: usize,
            );
            fn $last(
                values: *const $level, n: usize, outer: *const $level, o: usize, inner: *const $level, i: usize, kept: usize,
                rows: *mut $level, d: usize,
            );
            fn $weights(
                table: *mut $level, n: usize, outer: *const $level, o: usize, inner: *const $level, i: usize,
                batch: *const $level, d: usize, scratch: *mut $level, s: usize,
            );
            fn $challenged(
                table: *mut $level, n: usize, outer: *const $level, o: usize, inner: *const $level, i: usize,
                batch: *const $level, d: usize, kept: usize, challenge: *const $level, scratch: *mut $level, s: usize,
            );
        }

        impl Rattle for $level {
            fn pack(bits: &[u8], elements: &mut [Self]) {
                unsafe { $pack(bits.as_ptr(), bits.len(), elements.as_mut_ptr(), elements.len()) };
            }

            fn factor(outer: &mut [Self], inner: &mut [Self], point: &[Self]) {
                let (o, i) = (outer.len(), inner.len());
                unsafe { $factor(outer.as_mut_ptr(), o, inner.as_mut_ptr(), i, point.as_ptr(), point.len()) };
            }

            fn tensor(values: &[Self], equality: &FactoredEquality<Self>, rows: &mut [Self], scratch: &mut [Self]) {
                let (outer, inner) = (equality.outer, equality.inner);
                unsafe {
                    $tensor(
                        values.as_ptr(), values.len(), outer.as_ptr(), outer.len(), inner.as_ptr(), inner.len(),
                        rows.as_mut_ptr(), rows.len(), scratch.as_mut_ptr(), scratch.len(),
                    )
                };
            }

            fn carry(
                values: &[Self], equality: &FactoredEquality<Self>, kept: usize, shifted: &mut [Self], rows: &mut [Self], scratch: &mut [Self],
            ) {
                let (outer, inner) = (equality.outer, equality.inner);
                unsafe {
                    $carry(
                        values.as_ptr(), values.len(), outer.as_ptr(), outer.len(), inner.as_ptr(), inner.len(), kept,
                        shifted.as_mut_ptr(), shifted.len(), rows.as_mut_ptr(), rows.len(), scratch.as_mut_ptr(), scratch.len(),
                    )
                };
            }

            fn last(values: &[Self], equality: &FactoredEquality<Self>, kept: usize, rows: &mut [Self]) {
                let (outer, inner) = (equality.outer, equality.inner);
                unsafe {
                    $last(
                        values.as_ptr(), values.len(), outer.as_ptr(), outer.len(), inner.as_ptr(), inner.len(), kept,
                        rows.as_mut_ptr(), rows.len(),
                    )
                };
            }

            fn weights(
                table: &mut [Self], equality: &FactoredEquality<Self>, eq_batch: &[Self], stepping: Option<(usize, Self)>, scratch: &mut [Self],
            ) {
                let (outer, inner) = (equality.outer, equality.inner);
                let (n, s) = (table.len(), scratch.len());
                match stepping {
                    None => unsafe {
                        $weights(
                            table.as_mut_ptr(), n, outer.as_ptr(), outer.len(), inner.as_ptr(), inner.len(),
                            eq_batch.as_ptr(), eq_batch.len(), scratch.as_mut_ptr(), s,
                        )
                    },
                    Some((kept, challenge)) => unsafe {
                        $challenged(
                            table.as_mut_ptr(), n, outer.as_ptr(), outer.len(), inner.as_ptr(), inner.len(),
                            eq_batch.as_ptr(), eq_batch.len(), kept, &challenge, scratch.as_mut_ptr(), s,
                        )
                    },
                }
            }
        }
    };
}

rattle!(
    TowerByte, pack_tower_byte, factor_tower_byte, tensor_tower_byte, carry_tower_byte, last_tower_byte, weights_tower_byte,
    challenged_weights_tower_byte
);
rattle!(
    PolynomialByte, pack_polynomial_byte, factor_polynomial_byte, tensor_polynomial_byte, carry_polynomial_byte, last_polynomial_byte,
    weights_polynomial_byte, challenged_weights_polynomial_byte
);
rattle!(
    Full, pack_tower_128, factor_tower_128, tensor_tower_128, carry_tower_128, last_tower_128, weights_tower_128,
    challenged_weights_tower_128
);

// A xorshift generator with a fixed start.
struct Draw(u64);

impl Draw {
    fn word(&mut self) -> u64 {
        self.0 ^= self.0 << 13;
        self.0 ^= self.0 >> 7;
        self.0 ^= self.0 << 17;
        self.0
    }

    fn elements<L: Level>(&mut self, n: usize) -> Vec<L> {
        (0..n).map(|_| L::from_bits(u128::from(self.word()) << 64 | u128::from(self.word()))).collect()
    }

    fn bytes(&mut self, n: usize) -> Vec<u8> {
        (0..n).map(|_| self.word() as u8).collect()
    }
}

// What both sides work in: the memory that the Rattle code is lent, and the same for the Rust.
struct Memory<L> {
    elements: Vec<L>,
    outer: Vec<L>,
    inner: Vec<L>,
    shifted: Vec<L>,
    tensors: [Vec<L>; 3],
    table: Vec<L>,
    buckets: Vec<L>,
    sum: Vec<L>,
    tables: Vec<L>,
}

impl<L: Level> Memory<L> {
    fn new(high: usize) -> Self {
        let inner = high.min(LOG_BLOCK);
        let zeros = |n: usize| vec![L::ZERO; n];
        Memory {
            elements: zeros(1 << high),
            outer: zeros(1 << (high - inner)),
            inner: zeros(1 << inner),
            shifted: zeros(1 << inner),
            tensors: [zeros(L::WIDTH), zeros(L::WIDTH), zeros(L::WIDTH)],
            table: zeros(1 << high),
            buckets: zeros(256 * L::BYTES + L::WIDTH),
            sum: zeros(L::WIDTH),
            tables: zeros(512 * L::BYTES),
        }
    }

    fn answers(&self) -> impl Iterator<Item = [u8; 16]> {
        let tensors = self.tensors.iter().flatten();
        self.elements.iter().chain(tensors).chain(&self.table).map(|x| x.to_bytes())
    }
}

// The input: a table of bits, the point's coordinates past the packing, the batching table and the challenge.
struct Input<L> {
    bits: Vec<u8>,
    point: Vec<L>,
    eq_batch: Vec<L>,
    challenge: L,
}

#[derive(Clone, Copy)]
enum Operation {
    Packing,
    // The Rust collects into a vector of its own, as p3-sumcheck does, and frees the one before.
    PackingCollected,
    Tensors(Option<usize>),
    Weights(Option<usize>),
}

#[inline(never)]
fn rattle<L: Rattle>(input: &Input<L>, memory: &mut Memory<L>, operation: Operation) {
    let Memory { elements, outer, inner, shifted, tensors: [tensor, carry, last], table, buckets, tables, .. } = memory;
    if let Operation::Packing | Operation::PackingCollected = operation {
        return L::pack(&input.bits, elements);
    }
    L::factor(outer, inner, &input.point);
    let equality = FactoredEquality { outer, inner };
    match operation {
        Operation::Packing | Operation::PackingCollected => {}
        Operation::Tensors(view) => {
            L::tensor(elements, &equality, tensor, buckets);
            if let Some(kept) = view {
                L::carry(elements, &equality, kept, shifted, carry, buckets);
                L::last(elements, &equality, kept, last);
            }
        }
        Operation::Weights(view) => L::weights(table, &equality, &input.eq_batch, view.map(|kept| (kept, input.challenge)), tables),
    }
}

#[inline(never)]
fn rust<L: Level>(input: &Input<L>, memory: &mut Memory<L>, operation: Operation) {
    let Memory { elements, outer, inner, shifted, tensors: [tensor, carry, last], table, buckets, sum, tables } = memory;
    match operation {
        Operation::Packing => return algorithms::pack(&input.bits, elements),
        Operation::PackingCollected => {
            *elements = algorithms::pack_collected(&input.bits);
            return;
        }
        Operation::Tensors(_) | Operation::Weights(_) => {}
    }
    algorithms::factor(outer, inner, &input.point);
    let equality = FactoredEquality { outer, inner };
    match operation {
        Operation::Packing | Operation::PackingCollected => {}
        Operation::Tensors(view) => {
            let buckets = buckets[..256 * L::BYTES].as_chunks_mut().0;
            let mut scratch = Scratch { buckets, sum };
            algorithms::tensor_over(elements, &equality, tensor, &mut scratch);
            if let Some(kept) = view {
                algorithms::successor_tensors_over(elements, &equality, kept, shifted, carry, last, &mut scratch);
            }
        }
        Operation::Weights(view) => {
            let (sums, scaled) = tables.as_chunks_mut().0.split_at_mut(L::BYTES);
            let stepping = view.map(|kept| (kept, input.challenge));
            algorithms::weights_over(table, &equality, &input.eq_batch, stepping, sums, scaled);
        }
    }
}

fn nanoseconds(mut run: impl FnMut(), times: u32) -> f64 {
    let start = Instant::now();
    for _ in 0..times {
        run();
    }
    start.elapsed().as_nanos() as f64 / f64::from(times)
}

// The least time of each side, the two taken in turn.
fn best(mut first: impl FnMut(), mut second: impl FnMut()) -> (f64, f64) {
    let once = nanoseconds(&mut first, 1).min(nanoseconds(&mut first, 1)).max(1.0);
    let times = (2e5 / once).clamp(1.0, 1e4) as u32;
    let mut least = (f64::INFINITY, f64::INFINITY);
    let start = Instant::now();
    let mut rounds = 0;
    while rounds < 5 || (start.elapsed() < Duration::from_millis(300) && rounds < 200) {
        least.0 = least.0.min(nanoseconds(&mut first, times));
        least.1 = least.1.min(nanoseconds(&mut second, times));
        rounds += 1;
    }
    least
}

fn measure<L: Rattle>(name: &str, log_cells: usize, worst: &mut f64) {
    let high = log_cells - L::LOG;
    let mut draw = Draw(0x9f4c_2e81_77d3_605b);
    let input = Input::<L> {
        bits: draw.bytes(L::BYTES << high),
        point: draw.elements(high),
        eq_batch: draw.elements(L::WIDTH),
        challenge: draw.elements(1)[0],
    };
    let mut sides = [Memory::<L>::new(high), Memory::<L>::new(high)];
    let [proved, plain] = &mut sides;
    let mut views = vec![1, 6, high];
    views.retain(|&kept| kept <= high);
    views.dedup();
    let mut operations = vec![
        ("packing".to_string(), Operation::Packing),
        ("packing, collected".to_string(), Operation::PackingCollected),
        ("tensor, no view".to_string(), Operation::Tensors(None)),
    ];
    operations.extend(views.iter().map(|&kept| (format!("tensors, kept {kept}"), Operation::Tensors(Some(kept)))));
    operations.push(("weights, no view".to_string(), Operation::Weights(None)));
    operations.extend(views.iter().map(|&kept| (format!("weights, kept {kept}"), Operation::Weights(Some(kept)))));
    for (what, operation) in operations {
        let (a, b) = best(|| rattle(black_box(&input), black_box(proved), operation), || rust(black_box(&input), black_box(plain), operation));
        assert!(proved.answers().eq(plain.answers()), "{name}, {what}: the two answers differ");
        let cells = (1u64 << log_cells) as f64 * 1e3;
        println!("{name:<16} {:>6} {what:<18} {:>10.1} {:>10.1} {:>6.2}", format!("2^{log_cells}"), cells / a, cells / b, a / b);
        *worst = worst.max(a / b);
    }
}

fn main() {
    let mut worst = 0.0;
    println!("{:<16} {:>6} {:<18} {:>10} {:>10} {:>6}", "million cells/s", "cells", "", "Rattle", "Rust", "time");
    for log_cells in [13, 18, 22] {
        measure::<TowerByte>("tower byte", log_cells, &mut worst);
        measure::<PolynomialByte>("polynomial byte", log_cells, &mut worst);
        measure::<Full>("tower 128 bits", log_cells, &mut worst);
    }
    println!("Rattle takes at most {worst:.2} times as long as Rust");
}
