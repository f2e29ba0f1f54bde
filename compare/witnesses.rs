// What the Rust answers where the proved code answers otherwise, at the witnesses of docs/DIFFERENCES.md, and the words of its refusals. Each
// line that is printed was seen to hold.
use p3_binary_field::{Doubling, TowerByte, TowerLevel};
use p3_field::Field;
use p3_multilinear_util::point::Point;
use p3_sumcheck::ring_switch::bits::basis::Coefficients;
use p3_sumcheck::ring_switch::bits::fixed_prefix;
use p3_sumcheck::ring_switch::bits::packing::{BitPacking, BitPackingError};
use p3_sumcheck::ring_switch::bits::reduction::{
    BitRingSwitch, BitRingSwitchError, SuccessorTensors,
};
use p3_sumcheck::ring_switch::bits::tensor::{BitTensor, MalformedBitTensor};
use std::panic::{AssertUnwindSafe, catch_unwind};

// Levels of 128 and of 256 coordinates.
type Widest = Doubling<Doubling<Doubling<Doubling<TowerByte>>>>;
type TooWide = Doubling<Widest>;

fn byte(x: u8) -> TowerByte {
    TowerByte::from_le_byte_iter(std::iter::once(x))
}

fn point(coordinates: &[u8]) -> Point<TowerByte> {
    Point::new(coordinates.iter().map(|&x| byte(x)).collect())
}

fn panics<T>(run: impl FnOnce() -> T) -> bool {
    catch_unwind(AssertUnwindSafe(run)).is_err()
}

fn told(words: &str) {
    println!("{words}");
}

fn wide_level() {
    assert_eq!(BitPacking::<Widest>::new(&[0; 16]).unwrap().len(), 1);
    assert!(!panics(|| Coefficients::of(Widest::ONE)));
    let packing = BitPacking::<TooWide>::new(&[0; 32]).unwrap();
    assert_eq!(packing.len(), 1);
    assert!(panics(|| packing.coefficients(0)));
    assert!(panics(|| Coefficients::of(TooWide::ONE)));
    let reduction = BitRingSwitch::new(&Point::new(vec![TooWide::ONE; 8])).unwrap();
    assert!(panics(
        || reduction.tensor(&BitPacking::<TooWide>::new(&[1; 32]).unwrap())
    ));
    assert_eq!(
        BitPacking::<TooWide>::new(&[0; 3]).unwrap_err(),
        BitPackingError::NotAHypercube { cells: 24 }
    );
    told(
        "256 coordinates: 32 bytes are packed into one element, reading its coordinates and forming the tensor panic",
    );
}

fn rows() {
    let malformed = BitTensor::try_from(vec![TowerByte::ONE; 7]).unwrap_err();
    assert_eq!(
        malformed,
        MalformedBitTensor {
            expected: 8,
            actual: 7
        }
    );
    assert_eq!(
        malformed.to_string(),
        "a bit tensor element carries 7 rows, expected 8"
    );
    let one = BitTensor::<TowerByte>::one();
    assert_eq!(
        (one.column(0), one.column(8), one.column(127)),
        (TowerByte::ONE, TowerByte::ZERO, TowerByte::ZERO)
    );
    assert!(panics(|| one.column(128)));
    told(
        "7 rows at the tower byte: MalformedBitTensor with 8 and 7; columns 8 to 127 are zero, column 128 panics",
    );
}

fn closing_width() {
    let reduction = BitRingSwitch::new(&point(&[1, 2, 3, 4, 5, 6])).unwrap();
    let batch = reduction.batch(&point(&[7, 8, 9])).unwrap();
    assert_eq!(fixed_prefix(&reduction), (1, 1));
    let error = batch.closing_weight(&point(&[10])).unwrap_err();
    assert_eq!(
        error,
        BitRingSwitchError::WidthMismatch {
            expected: 3,
            actual: 2
        }
    );
    assert!(panics(|| batch.weights().as_slice()[4]));
    told(
        "closing at one coordinate, where the slot has two after a prefix of one: WidthMismatch with 3 and 2; weight 4 of 4 panics",
    );
}

fn absent_tensors() {
    let packing = BitPacking::<TowerByte>::new(&[0, 1]).unwrap();
    let reduction = BitRingSwitch::with_successor(&point(&[0, 1, 1, 1]), 4).unwrap();
    let tensor = reduction.tensor(&packing).unwrap();
    let sent = reduction.successor_tensors(&packing).unwrap();
    assert_eq!(
        reduction.successor_claim(&tensor, sent.as_ref()),
        Ok(byte(1))
    );
    assert!(panics(|| reduction.successor_claim(&tensor, None)));
    let zero = SuccessorTensors {
        carry: BitTensor::zero(),
        last: BitTensor::zero(),
    };
    assert_eq!(reduction.successor_claim(&tensor, Some(&zero)), Ok(byte(0)));
    let batch = reduction
        .batch_with_successor(&point(&[0, 0, 0]), byte(2))
        .unwrap();
    assert_eq!(batch.initial_sum(&tensor, sent.as_ref()), byte(2));
    assert!(panics(|| batch.initial_sum(&tensor, None)));
    assert_eq!(batch.initial_sum(&tensor, Some(&zero)), byte(0));
    told(
        "successor claim and initial sum without the tensors that are sent: panic; with zero tensors both are 00",
    );

    let reduction = BitRingSwitch::with_successor(&point(&[0, 1, 1, 1]), 3).unwrap();
    let tensor = reduction.tensor(&packing).unwrap();
    assert!(panics(|| reduction.successor_claim(&tensor, sent.as_ref())));
    let batch = reduction.batch(&point(&[0, 0, 0])).unwrap();
    assert!(panics(|| batch.initial_sum(&tensor, sent.as_ref())));
    told("successor claim and initial sum with tensors that are not sent: panic");
}

fn long_prefix() {
    let mut coordinates = vec![TowerByte::ZERO; 68];
    coordinates[0] = TowerByte::ONE;
    let reduction = BitRingSwitch::new(&Point::new(coordinates)).unwrap();
    assert_eq!(fixed_prefix(&reduction), (65, 0));
    told("a prefix of a one and 64 zeroes: count 65, address 0");
}

// The values that stand in a refusal with its words.
fn words() {
    let said = [
        (
            BitPacking::<TowerByte>::new(&[0; 3])
                .unwrap_err()
                .to_string(),
            "a bit witness covers 24 cells, which is no hypercube",
        ),
        (
            BitPacking::<Widest>::new(&[0; 8]).unwrap_err().to_string(),
            "packing needs at least 16 bytes, got 8",
        ),
        (
            BitRingSwitch::with_successor(&point(&[0, 0]), 3)
                .unwrap_err()
                .to_string(),
            "the successor view names 3 row variables, the point 2",
        ),
        (
            BitRingSwitch::with_successor(&point(&[0, 0]), 2)
                .unwrap_err()
                .to_string(),
            "the evaluation point names 2 variables, at least 3 are needed",
        ),
        (
            BitRingSwitch::with_successor(&point(&[0; 4]), 4)
                .unwrap()
                .batch(&point(&[0]))
                .unwrap_err()
                .to_string(),
            "the batching stage does not fit the reduction, successor challenge expected: true",
        ),
        (
            BitRingSwitch::new(&point(&[0; 4]))
                .unwrap()
                .batch_with_successor(&point(&[0]), byte(0))
                .unwrap_err()
                .to_string(),
            "the batching stage does not fit the reduction, successor challenge expected: false",
        ),
        (
            BitRingSwitch::new(&point(&[0; 4]))
                .unwrap()
                .batch(&point(&[0]))
                .unwrap_err()
                .to_string(),
            "the batching challenge names 1 variables, expected 3",
        ),
        (
            BitRingSwitch::new(&point(&[0; 4]))
                .unwrap()
                .tensor(&BitPacking::new(&[0]).unwrap())
                .unwrap_err()
                .to_string(),
            "the reduction runs over 1 variables, got 0",
        ),
    ];
    for (words, expected) in said {
        assert_eq!(words, expected);
        told(&format!("words of a refusal: {words}"));
    }
}

fn main() {
    std::panic::set_hook(Box::new(|_| {}));
    let run = catch_unwind(|| {
        wide_level();
        rows();
        closing_width();
        absent_tensors();
        long_prefix();
        words();
    });
    if run.is_err() {
        eprintln!("the witness after the last line does not hold");
        std::process::exit(1);
    }
}
