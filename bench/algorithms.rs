// The reduction's algorithms in plain Rust, as p3-sumcheck 0.8.0 has them in src/ring_switch/bits, in one thread and without its
// kernels for wide registers. Whatever it allocates is lent here, so that nothing is allocated while time is taken, but for `pack_collected`.
use crate::levels::Level;

// The coordinates that the inner factor of an equality table takes at most.
pub const LOG_BLOCK: usize = 14;

pub fn pack<L: Level>(bits: &[u8], elements: &mut [L]) {
    for (element, chunk) in elements.iter_mut().zip(bits.chunks_exact(L::BYTES)) {
        let mut bytes = [0; 16];
        bytes[..L::BYTES].copy_from_slice(chunk);
        *element = L::from_bytes(bytes);
    }
}

// The same as p3-sumcheck writes it, into a vector of its own.
pub fn pack_collected<L: Level>(bits: &[u8]) -> Vec<L> {
    bits.chunks_exact(L::BYTES).map(|chunk| L::from_le_byte_iter(chunk.iter().copied())).collect()
}

fn equality_table<L: Level>(table: &mut [L], point: &[L]) {
    table[0] = L::ONE;
    let mut half = 1;
    for &x in point.iter().rev() {
        let (low, high) = table[..2 * half].split_at_mut(half);
        for (low, high) in low.iter_mut().zip(high) {
            *high = x.mul(*low);
            *low = low.add(*high);
        }
        half *= 2;
    }
}

// The equality table of a point, held as the two factors that it is the product of.
pub struct FactoredEquality<'a, L> {
    pub outer: &'a [L],
    pub inner: &'a [L],
}

pub fn factor<L: Level>(outer: &mut [L], inner: &mut [L], point: &[L]) {
    let (first, last) = point.split_at(point.len() - LOG_BLOCK.min(point.len()));
    equality_table(outer, first);
    equality_table(inner, last);
}

impl<L: Level> FactoredEquality<'_, L> {
    fn before_block(&self, index: usize) -> L {
        index.checked_sub(1).map_or(L::ZERO, |previous| self.outer[previous].mul(self.inner[self.inner.len() - 1]))
    }
}

// The positions of the set bits of a byte, lowest first.
fn set_bits(byte: u8) -> impl Iterator<Item = usize> {
    let mut rest = byte;
    std::iter::from_fn(move || {
        (rest != 0).then(|| {
            let bit = rest.trailing_zeros() as usize;
            rest &= rest - 1;
            bit
        })
    })
}

fn iter_set<L: Level>(bytes: &[u8; 16]) -> impl Iterator<Item = usize> {
    bytes[..L::BYTES].iter().enumerate().flat_map(|(position, &byte)| set_bits(byte).map(move |bit| 8 * position + bit))
}

pub fn add_exterior_product<L: Level>(rows: &mut [L], a: L, b: L) {
    let rows = &mut rows[..L::WIDTH];
    for u in iter_set::<L>(&a.to_bytes()) {
        rows[u] = rows[u].add(b);
    }
}

pub fn add_scaled_columns<L: Level>(rows: &mut [L], other: &[L], a: L) {
    for (u, &row) in other.iter().enumerate() {
        if row != L::ZERO {
            add_exterior_product(rows, a.mul(L::basis(u)), row);
        }
    }
}

// 256 entries for each byte of an element.
pub type Tables<L> = [[L; 256]];

fn read_rows<L: Level>(buckets: &Tables<L>, rows: &mut [L]) {
    rows.fill(L::ZERO);
    for (bucket, rows) in buckets.iter().zip(rows.as_chunks_mut::<8>().0) {
        for (value, &sum) in bucket.iter().enumerate() {
            for bit in set_bits(value as u8) {
                rows[bit] = rows[bit].add(sum);
            }
        }
    }
}

// The sum of left[j] ⊗ right[j], in rows.
pub fn sum<L: Level>(left: &[L], right: &[L], buckets: &mut Tables<L>, rows: &mut [L]) {
    let buckets = &mut buckets[..L::BYTES];
    for bucket in buckets.iter_mut() {
        bucket.fill(L::ZERO);
    }
    for (&left, &right) in left.iter().zip(right) {
        for (bucket, byte) in buckets.iter_mut().zip(left.to_bytes()) {
            let place = &mut bucket[usize::from(byte)];
            *place = place.add(right);
        }
    }
    read_rows(buckets, rows);
}

pub struct Scratch<'a, L> {
    pub buckets: &'a mut Tables<L>,
    pub sum: &'a mut [L],
}

pub fn tensor_over<L: Level>(values: &[L], equality: &FactoredEquality<L>, rows: &mut [L], scratch: &mut Scratch<L>) {
    rows.fill(L::ZERO);
    for (values, &weight) in values.chunks(equality.inner.len()).zip(equality.outer) {
        sum(equality.inner, values, scratch.buckets, scratch.sum);
        add_scaled_columns(rows, scratch.sum, weight);
    }
}

pub fn successor_tensors_over<L: Level>(
    values: &[L],
    equality: &FactoredEquality<L>,
    kept: usize,
    shifted: &mut [L],
    carry: &mut [L],
    last: &mut [L],
    scratch: &mut Scratch<L>,
) {
    let block = equality.inner.len();
    let column = 1usize << kept;
    let max = column - 1;
    let inner = equality.inner;
    for (j, slot) in shifted.iter_mut().enumerate() {
        *slot = if j & max == 0 { L::ZERO } else { inner[j - 1] };
    }
    carry.fill(L::ZERO);
    last.fill(L::ZERO);
    for (index, (values, &weight)) in values.chunks(block).zip(equality.outer).enumerate() {
        let start = (index * block) & max;
        if start != 0 {
            add_exterior_product(carry, equality.before_block(index), values[0]);
        }
        sum(shifted, values, scratch.buckets, scratch.sum);
        add_scaled_columns(carry, scratch.sum, weight);
        for j in (max - start..values.len()).step_by(column) {
            add_exterior_product(last, weight.mul(inner[j]), values[j]);
        }
    }
}

// Tabulates the subset sums of one weight for each coordinate.
pub fn overwrite<L: Level>(tables: &mut Tables<L>, mut weight: impl FnMut(usize) -> L) {
    for (position, slot) in tables.iter_mut().enumerate() {
        let coordinates: [L; 8] = std::array::from_fn(|bit| weight(8 * position + bit));
        let mut table = [L::ZERO; 256];
        for subset in 1..256usize {
            let lowest = subset.trailing_zeros() as usize;
            table[subset] = table[subset & (subset - 1)].add(coordinates[lowest]);
        }
        *slot = table;
    }
}

fn coordinate_sum<L: Level>(tables: &Tables<L>, value: L) -> L {
    let entries = tables[..L::BYTES].iter().zip(value.to_bytes()).map(|(table, byte)| table[usize::from(byte)]);
    entries.fold(L::ZERO, L::add)
}

pub fn scaled_sums_into<L: Level>(out: &mut Tables<L>, sums: &Tables<L>, scale: L) {
    overwrite(out, |coordinate| coordinate_sum(sums, scale.mul(L::basis(coordinate))));
}

pub fn apply_into<L: Level>(tables: &Tables<L>, input: &[L], output: &mut [L]) {
    let tables = &tables[..L::BYTES];
    for (destination, &value) in output.iter_mut().zip(input) {
        *destination = coordinate_sum(tables, value);
    }
}

pub fn combine_weights<L: Level>(table: &mut [L], kept: usize, alpha: L) {
    let column = 1usize << kept;
    let max = column - 1;
    let alpha_squared = alpha.mul(alpha);
    for entries in table.chunks_exact_mut(column) {
        for row in (0..entries.len()).rev() {
            let settled = entries[row];
            let mut value = settled;
            if row != 0 {
                value = value.add(alpha.mul(entries[row - 1]));
            }
            if row == max {
                value = value.add(alpha_squared.mul(settled));
            }
            entries[row] = value;
        }
    }
}

pub fn weights_over<L: Level>(
    table: &mut [L],
    equality: &FactoredEquality<L>,
    eq_batch: &[L],
    stepping: Option<(usize, L)>,
    sums: &mut Tables<L>,
    scaled: &mut Tables<L>,
) {
    overwrite(sums, |coordinate| eq_batch[coordinate]);
    for (block, &weight) in table.chunks_mut(equality.inner.len()).zip(equality.outer) {
        scaled_sums_into(scaled, sums, weight);
        apply_into(scaled, equality.inner, block);
    }
    if let Some((kept, alpha)) = stepping {
        combine_weights(table, kept, alpha);
    }
}
