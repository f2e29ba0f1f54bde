// Compares the pieces of the Rust that no program prints with their definitions, written here with loops over coordinates and over the hypercube:
// coordinates, tensors, subset sums, equality tables in two factors, and sums of exterior products. Elements are drawn from a fixed start.
use p3_binary_field::{Bit, Doubling, PolynomialByte, TowerByte, TowerLevel};
use p3_sumcheck::ring_switch::bits::basis::Coefficients;
use p3_sumcheck::ring_switch::bits::tensor::BitTensor;
use p3_sumcheck::ring_switch::bits::{coordinate_sums, factored_equality, sum_of_products};

struct Draw(u64);

impl Draw {
    // The multiplier and the increment are Knuth's, of MMIX.
    fn byte(&mut self) -> u8 {
        self.0 = self
            .0
            .wrapping_mul(6364136223846793005)
            .wrapping_add(1442695040888963407);
        (self.0 >> 56) as u8
    }

    fn element<L: TowerLevel>(&mut self) -> L {
        L::from_coordinates(&mut |_| self.byte() >> 7 == 1)
    }

    fn elements<L: TowerLevel>(&mut self, count: usize) -> Vec<L> {
        (0..count).map(|_| self.element()).collect()
    }
}

fn width<L: TowerLevel>() -> usize {
    1 << L::LOG_BITS
}

fn basis<L: TowerLevel>(u: usize) -> L {
    L::from_coordinates(&mut |j| j == u)
}

// A tensor as its rows, each a list of coordinates.
type Matrix = Vec<Vec<bool>>;

fn matrix<L: TowerLevel>(entry: impl Fn(usize, usize) -> bool) -> Matrix {
    (0..width::<L>())
        .map(|u| (0..width::<L>()).map(|v| entry(u, v)).collect())
        .collect()
}

fn exterior<L: TowerLevel>(a: L, b: L) -> Matrix {
    matrix::<L>(|u, v| a.coordinate(u) && b.coordinate(v))
}

fn plus(left: &Matrix, right: &Matrix) -> Matrix {
    left.iter()
        .zip(right)
        .map(|(l, r)| l.iter().zip(r).map(|(x, y)| x != y).collect())
        .collect()
}

fn zero<L: TowerLevel>() -> Matrix {
    matrix::<L>(|_, _| false)
}

// The product of a ⊗ b and a tensor: by bilinearity, from the products of basis elements.
fn times<L: TowerLevel>(a: L, b: L, m: &Matrix) -> Matrix {
    let mut product = zero::<L>();
    for (u, row) in m.iter().enumerate() {
        for (v, &set) in row.iter().enumerate() {
            if set {
                product = plus(&product, &exterior(a * basis(u), b * basis(v)));
            }
        }
    }
    product
}

fn read<L: TowerLevel>(tensor: &BitTensor<L>) -> Matrix {
    assert_eq!(tensor.rows().len(), width::<L>());
    tensor
        .rows()
        .iter()
        .map(|row| (0..width::<L>()).map(|v| row.coordinate(v)).collect())
        .collect()
}

// The equality polynomial at a point and a place of the hypercube, whose most significant bit belongs to the first coordinate.
fn equality<L: TowerLevel>(point: &[L], place: usize) -> L {
    let bit = |i: usize| place >> (point.len() - 1 - i) & 1 == 1;
    (0..point.len())
        .map(|i| if bit(i) { point[i] } else { L::ONE + point[i] })
        .product()
}

fn coordinates<L: TowerLevel>(draw: &mut Draw) {
    let x: L = draw.element();
    let read = Coefficients::of(x);
    let expected: Vec<bool> = (0..width::<L>()).map(|j| x.coordinate(j)).collect();
    assert_eq!(read.iter().collect::<Vec<_>>(), expected);
    assert_eq!(
        read.iter_set().collect::<Vec<_>>(),
        (0..width::<L>())
            .filter(|&j| expected[j])
            .collect::<Vec<_>>()
    );
    assert_eq!(read.element(), x);
    let weights: Vec<L> = draw.elements(width::<L>());
    let scale: L = draw.element();
    let sum = |x: L| -> L {
        (0..width::<L>())
            .filter(|&j| x.coordinate(j))
            .map(|j| weights[j])
            .sum()
    };
    assert_eq!(
        coordinate_sums(&weights, scale, x),
        (sum(x), sum(scale * x))
    );
}

fn tensors<L: TowerLevel>(draw: &mut Draw) {
    let (a, b): (L, L) = (draw.element(), draw.element());
    assert_eq!(read(&BitTensor::exterior_product(a, b)), exterior(a, b));
    assert_eq!(read(&BitTensor::<L>::one()), exterior(L::ONE, L::ONE));
    let rows: Vec<L> = draw.elements(width::<L>());
    let m = BitTensor::try_from(rows).unwrap();
    let plain = read(&m);
    let transposed: Vec<L> = (0..width::<L>())
        .map(|v| L::from_coordinates(&mut |u| plain[u][v]))
        .collect();
    assert_eq!(m.columns(), transposed);
    assert!((0..width::<L>()).all(|v| m.column(v) == transposed[v]));
    let mut sum = m.clone();
    sum += &BitTensor::exterior_product(a, b);
    assert_eq!(read(&sum), plus(&plain, &exterior(a, b)));
    // A product with a tensor takes about d^4 steps, so it is left to levels of up to 32 coordinates.
    if width::<L>() <= 32 {
        let (by_columns, by_rows) = (times(a, L::ONE, &plain), times(L::ONE, b, &plain));
        let mut scaled = m.clone();
        scaled.scale_columns(a);
        assert_eq!(read(&scaled), by_columns);
        let mut scaled = m.clone();
        scaled.scale_rows(b);
        assert_eq!(read(&scaled), by_rows);
        let mut added = BitTensor::exterior_product(a, b);
        added.add_scaled_columns(&m, a);
        assert_eq!(read(&added), plus(&exterior(a, b), &by_columns));
        let mut factor = m.clone();
        factor.mul_equality_factor(a, b);
        assert_eq!(read(&factor), plus(&plain, &plus(&by_columns, &by_rows)));
    }
    for variables in 0..4 {
        let (point, other): (Vec<L>, Vec<L>) = (draw.elements(variables), draw.elements(variables));
        let expected = (1..1 << variables)
            .map(|x| exterior(equality(&point, x - 1), equality(&other, x)))
            .fold(zero::<L>(), |sum, term| plus(&sum, &term));
        assert_eq!(
            read(&BitTensor::successor_element(&point, &other)),
            expected
        );
    }
}

fn tables<L: TowerLevel>(draw: &mut Draw) {
    for variables in 0..6 {
        for log_block in 0..7 {
            let point: Vec<L> = draw.elements(variables);
            let (outer, inner, before) = factored_equality(&point, log_block);
            assert_eq!(inner.len(), 1 << log_block.min(variables));
            let entries: Vec<L> = outer
                .iter()
                .flat_map(|&o| inner.iter().map(move |&i| o * i))
                .collect();
            let expected: Vec<L> = (0..1 << variables)
                .map(|place| equality(&point, place))
                .collect();
            assert_eq!(entries, expected);
            let earlier: Vec<L> = (0..outer.len())
                .map(|at| {
                    if at == 0 {
                        L::ZERO
                    } else {
                        expected[at * inner.len() - 1]
                    }
                })
                .collect();
            assert_eq!(before, earlier);
        }
    }
    for (left, right) in [(0, 0), (1, 1), (7, 7), (16, 16), (9, 5), (5, 9)] {
        let (left, right): (Vec<L>, Vec<L>) = (draw.elements(left), draw.elements(right));
        let expected = left
            .iter()
            .zip(&right)
            .map(|(&a, &b)| exterior(a, b))
            .fold(zero::<L>(), |sum, term| plus(&sum, &term));
        // Twice, since what is left of the first sum must not enter the second.
        assert!(
            sum_of_products(&left, &right)
                .iter()
                .all(|sum| read(sum) == expected)
        );
    }
}

fn level<L: TowerLevel>(name: &str) {
    let mut draw = Draw(20261126);
    for _ in 0..16 {
        coordinates::<L>(&mut draw);
        tensors::<L>(&mut draw);
    }
    tables::<L>(&mut draw);
    println!("pieces at {name}: as defined");
}

type Two<L> = Doubling<L>;

fn main() {
    level::<Bit>("the bit");
    level::<Two<Bit>>("2 coordinates");
    level::<Two<Two<Bit>>>("4 coordinates");
    level::<Two<Two<Two<Bit>>>>("8 coordinates");
    level::<TowerByte>("the tower byte");
    level::<PolynomialByte>("the polynomial byte");
    level::<Two<TowerByte>>("16 coordinates");
    level::<Two<Two<TowerByte>>>("32 coordinates");
    level::<Two<Two<Two<TowerByte>>>>("64 coordinates");
    level::<Two<Two<Two<Two<TowerByte>>>>>("128 coordinates");
}
