// Nanoseconds per product: the proved Rattle code against the same algorithms in plain Rust, in one run.
#[allow(dead_code)]
mod levels;

use levels::{Full, Level, Oct, Pair, PolynomialByte, Quad, TowerByte};
use std::hint::black_box;
use std::time::Instant;

#[link(name = "bench_products", kind = "static")]
unsafe extern "C" {
    fn chain_tower_byte(x: u64, y: u64, n: u64) -> u64;
    fn chain_polynomial_byte(x: u64, y: u64, n: u64) -> u64;
    fn chain_tower_16(x: u64, y: u64, n: u64) -> u64;
    fn chain_tower_32(x: u64, y: u64, n: u64) -> u64;
    fn chain_tower_64(x: u64, y: u64, n: u64) -> u64;
    fn chain_tower_128(x: u64, y: u64, n: u64) -> u64;
}

#[inline(never)]
fn chain<L: Level>(x: u64, y: u64, n: u64) -> u64 {
    let mut product = L::from_bits(u128::from(x));
    let factor = L::from_bits(u128::from(y));
    for _ in 0..n {
        product = product.mul(factor);
    }
    product.bits() as u64
}

type Chain = fn(u64, u64, u64) -> u64;

fn best(chain: &dyn Fn(u64, u64, u64) -> u64, n: u64) -> (f64, u64) {
    let (x, y) = (black_box(0x9f4c_2e81_77d3_605b), black_box(0x3b92_c5e6_1d08_a4f7));
    let mut least = f64::INFINITY;
    let mut answer = 0;
    for _ in 0..9 {
        let start = Instant::now();
        answer = chain(x, y, black_box(n));
        least = least.min(start.elapsed().as_nanos() as f64 / n as f64);
    }
    (least, answer)
}

fn main() {
    let rows: [(&str, u64, Chain, Chain); 6] = [
        ("tower byte", 1 << 23, |x, y, n| unsafe { chain_tower_byte(x, y, n) }, chain::<TowerByte>),
        ("polynomial byte", 1 << 23, |x, y, n| unsafe { chain_polynomial_byte(x, y, n) }, chain::<PolynomialByte>),
        ("tower 16 bits", 1 << 22, |x, y, n| unsafe { chain_tower_16(x, y, n) }, chain::<Pair>),
        ("tower 32 bits", 1 << 21, |x, y, n| unsafe { chain_tower_32(x, y, n) }, chain::<Quad>),
        ("tower 64 bits", 1 << 20, |x, y, n| unsafe { chain_tower_64(x, y, n) }, chain::<Oct>),
        ("tower 128 bits", 1 << 18, |x, y, n| unsafe { chain_tower_128(x, y, n) }, chain::<Full>),
    ];
    println!("{:<16} {:>10} {:>10} {:>7}", "ns per product", "Rattle", "Rust", "ratio");
    for (name, n, rattle, rust) in rows {
        let (a, r) = best(&rattle, n);
        let (b, s) = best(&rust, n);
        assert_eq!(r, s, "{name}: the two answers differ");
        println!("{name:<16} {a:>10.2} {b:>10.2} {:>7.2}", a / b);
    }
}
