// The levels of the benchmarks in plain Rust: the same products as the Rattle code's, written as Rust writes them.

pub trait Level: Copy + PartialEq {
    // The logarithm of the number of coordinates, how many these are, and the bytes that they fill.
    const LOG: usize;
    const WIDTH: usize = 1 << Self::LOG;
    const BYTES: usize = Self::WIDTH / 8;
    const ZERO: Self;
    const ONE: Self;
    fn add(self, other: Self) -> Self;
    fn mul(self, other: Self) -> Self;
    fn mul_generator(self) -> Self;
    // Coordinate u is bit u.
    fn from_bits(bits: u128) -> Self;
    fn bits(self) -> u128;

    fn from_bytes(bytes: [u8; 16]) -> Self {
        Self::from_bits(u128::from_le_bytes(bytes))
    }

    fn from_le_byte_iter(bytes: impl Iterator<Item = u8>) -> Self {
        let mut sixteen = [0; 16];
        for (slot, byte) in sixteen.iter_mut().zip(bytes) {
            *slot = byte;
        }
        Self::from_bytes(sixteen)
    }

    fn to_bytes(self) -> [u8; 16] {
        self.bits().to_le_bytes()
    }

    // The element of which coordinate u alone is set.
    fn basis(u: usize) -> Self {
        Self::from_bits(1 << u)
    }
}

fn combine(a: u8, rows: &[u8]) -> u8 {
    let mut sum = 0;
    let mut bits = a;
    for row in rows {
        sum ^= (bits % 2) * row;
        bits >>= 1;
    }
    sum
}

#[derive(Clone, Copy, PartialEq)]
#[repr(C)]
pub struct TowerByte(u8);

fn times_x0(b: u8) -> u8 {
    ((b >> 1) & 0x55) ^ ((b << 1) & 0xaa) ^ (b & 0xaa)
}

fn times_x1(b: u8) -> u8 {
    ((b >> 2) & 0x33) ^ ((b << 2) & 0xcc) ^ times_x0(b & 0xcc)
}

fn times_x2(b: u8) -> u8 {
    (b >> 4) ^ (b << 4) ^ times_x1(b & 0xf0)
}

impl Level for TowerByte {
    const LOG: usize = 3;
    const ZERO: Self = TowerByte(0);
    const ONE: Self = TowerByte(1);
    fn add(self, other: Self) -> Self {
        TowerByte(self.0 ^ other.0)
    }
    fn mul(self, other: Self) -> Self {
        let c = times_x1(other.0);
        let rows = [other.0, times_x0(other.0), c, times_x0(c)];
        TowerByte(combine(self.0, &rows) ^ times_x2(combine(self.0 >> 4, &rows)))
    }
    fn mul_generator(self) -> Self {
        TowerByte(times_x2(self.0))
    }
    fn from_bits(bits: u128) -> Self {
        TowerByte(bits as u8)
    }
    fn bits(self) -> u128 {
        u128::from(self.0)
    }
}

#[derive(Clone, Copy, PartialEq)]
#[repr(C)]
pub struct PolynomialByte(u8);

fn xtime(b: u8) -> u8 {
    (b << 1) ^ ((b >> 7) * 0x1b)
}

impl Level for PolynomialByte {
    const LOG: usize = 3;
    const ZERO: Self = PolynomialByte(0);
    const ONE: Self = PolynomialByte(1);
    fn add(self, other: Self) -> Self {
        PolynomialByte(self.0 ^ other.0)
    }
    fn mul(self, other: Self) -> Self {
        let mut rows = [other.0; 8];
        for i in 1..8 {
            rows[i] = xtime(rows[i - 1]);
        }
        PolynomialByte(combine(self.0, &rows))
    }
    fn mul_generator(self) -> Self {
        self
    }
    fn from_bits(bits: u128) -> Self {
        PolynomialByte(bits as u8)
    }
    fn bits(self) -> u128 {
        u128::from(self.0)
    }
}

#[derive(Clone, Copy, PartialEq)]
#[repr(C)]
pub struct Doubling<L> {
    low: L,
    high: L,
}

impl<L: Level> Level for Doubling<L> {
    const LOG: usize = L::LOG + 1;
    const ZERO: Self = Doubling { low: L::ZERO, high: L::ZERO };
    const ONE: Self = Doubling { low: L::ONE, high: L::ZERO };
    fn add(self, other: Self) -> Self {
        Doubling { low: self.low.add(other.low), high: self.high.add(other.high) }
    }
    fn mul(self, other: Self) -> Self {
        let ac = self.low.mul(other.low);
        let be = self.high.mul(other.high);
        let sums = self.low.add(self.high).mul(other.low.add(other.high));
        Doubling { low: ac.add(be), high: sums.add(ac).add(be).add(be.mul_generator()) }
    }
    fn mul_generator(self) -> Self {
        Doubling { low: self.high, high: self.low.add(self.high.mul_generator()) }
    }
    fn from_bits(bits: u128) -> Self {
        Doubling { low: L::from_bits(bits), high: L::from_bits(bits >> L::WIDTH) }
    }
    fn bits(self) -> u128 {
        self.low.bits() | self.high.bits() << L::WIDTH
    }
}

pub type Pair = Doubling<TowerByte>;
pub type Quad = Doubling<Pair>;
pub type Oct = Doubling<Quad>;
pub type Full = Doubling<Oct>;
