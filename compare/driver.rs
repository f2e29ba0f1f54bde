// Reads the text that the program `reduce_cases` reads, and prints what that program prints, computed by the copied Rust files. Only texts
// that `reduce_cases` can read are read here. Where the Rust panics, the case ends with a line `panic`.
use p3_binary_field::{Doubling, PolynomialByte, TowerByte, TowerLevel};
use p3_multilinear_util::point::Point;
use p3_sumcheck::ring_switch::bits::fixed_prefix;
use p3_sumcheck::ring_switch::bits::packing::{BitPacking, BitPackingError};
use p3_sumcheck::ring_switch::bits::reduction::{BitRingSwitch, BitRingSwitchError};
use std::fmt::Write;
use std::io::{self, Read};
use std::panic::{AssertUnwindSafe, catch_unwind};

// The texts of the lines of a key.
fn texts<'a>(case: &'a str, key: &str) -> Vec<&'a str> {
    let after = |line: &'a str| {
        line.strip_prefix(key).and_then(|rest| {
            if rest.is_empty() {
                Some(rest)
            } else {
                rest.strip_prefix(' ')
            }
        })
    };
    case.lines().filter_map(after).collect()
}

fn text<'a>(case: &'a str, key: &str) -> Option<&'a str> {
    texts(case, key).first().copied()
}

fn hex(digits: &str) -> Vec<u8> {
    (0..digits.len())
        .step_by(2)
        .map(|at| u8::from_str_radix(&digits[at..at + 2], 16).expect("hexadecimal digits"))
        .collect()
}

fn elements<EF: TowerLevel>(text: &str) -> Vec<EF> {
    text.split_ascii_whitespace()
        .map(|digits| EF::from_le_byte_iter(hex(digits).into_iter()))
        .collect()
}

fn shown<EF: TowerLevel>(x: EF) -> String {
    x.into_bytes()
        .into_iter()
        .map(|byte| format!("{byte:02x}"))
        .collect()
}

// The number of a refusal of packing.
fn packing_number(error: &BitPackingError) -> u32 {
    match error {
        BitPackingError::SubByteLevel { .. } => 9,
        BitPackingError::NotAHypercube { .. } => 10,
        BitPackingError::TooShort { .. } => 11,
    }
}

// The number of a refusal of another step. A width that does not match is told apart by the step.
fn number(error: &BitRingSwitchError, width: u32) -> u32 {
    match error {
        BitRingSwitchError::RowVariables { .. } => 13,
        BitRingSwitchError::PointTooNarrow { .. } => 14,
        BitRingSwitchError::WidthMismatch { .. } => width,
        BitRingSwitchError::SuccessorBatching { .. } => 17,
        BitRingSwitchError::BatchWidthMismatch { .. } => 18,
        BitRingSwitchError::NoSuccessorView => 19,
        BitRingSwitchError::NoClaims => unreachable!("there is one claim"),
    }
}

// Adds the lines of a case until a step is refused, by the number that is answered.
fn lines<EF: TowerLevel>(case: &str, out: &mut String) -> Result<(), u32> {
    let bits = hex(text(case, "bits").expect("bits"));
    let point = Point::new(elements::<EF>(text(case, "point").expect("a point")));
    let view = text(case, "view").map(|digits| digits.parse().expect("a number"));
    let packing = BitPacking::<EF>::new(&bits).map_err(|error| packing_number(&error))?;
    for &element in packing.poly().as_slice() {
        writeln!(out, "packed {}", shown(element)).unwrap();
    }
    let opening = match view {
        Some(rows) => BitRingSwitch::with_successor(&point, rows),
        None => BitRingSwitch::new(&point),
    };
    let reduction = opening.map_err(|error| number(&error, 16))?;
    let tensor = reduction
        .tensor(&packing)
        .map_err(|error| number(&error, 16))?;
    let tensors = reduction
        .successor_tensors(&packing)
        .map_err(|error| number(&error, 16))?;
    writeln!(out, "incoming {}", shown(reduction.incoming_claim(&tensor))).unwrap();
    match reduction.successor_claim(&tensor, tensors.as_ref()) {
        Ok(claim) => writeln!(out, "successor {}", shown(claim)).unwrap(),
        Err(error) => {
            assert!(error == BitRingSwitchError::NoSuccessorView && view.is_none());
            writeln!(out, "successor none").unwrap();
        }
    }
    let (prefix, address) = fixed_prefix(&reduction);
    writeln!(out, "prefix {prefix}\naddress {address}").unwrap();
    let Some(batching) = text(case, "batching") else {
        return Ok(());
    };
    let batching = Point::new(elements(batching));
    let batch = match text(case, "challenge") {
        Some(challenge) => reduction.batch_with_successor(&batching, elements(challenge)[0]),
        None => reduction.batch(&batching),
    };
    let batch = batch.map_err(|error| number(&error, 16))?;
    writeln!(
        out,
        "initial {}",
        shown(batch.initial_sum(&tensor, tensors.as_ref()))
    )
    .unwrap();
    for &weight in batch.weights().as_slice() {
        writeln!(out, "weight {}", shown(weight)).unwrap();
    }
    for closing in texts(case, "closing") {
        let value = batch
            .closing_weight(&Point::new(elements(closing)))
            .map_err(|error| number(&error, 21))?;
        writeln!(out, "closing {}", shown(value)).unwrap();
    }
    Ok(())
}

fn report<EF: TowerLevel>(case: &str) -> String {
    let mut out = String::new();
    match catch_unwind(AssertUnwindSafe(|| lines::<EF>(case, &mut out))) {
        Ok(Ok(())) => {}
        Ok(Err(number)) => writeln!(out, "refused {number}").unwrap(),
        Err(_) => out += "panic\n",
    }
    out
}

fn answer(case: &str) -> String {
    match text(case, "level").expect("a level") {
        "b" => report::<TowerByte>(case),
        "w" => report::<Doubling<TowerByte>>(case),
        "d" => report::<Doubling<Doubling<TowerByte>>>(case),
        "q" => report::<Doubling<Doubling<Doubling<TowerByte>>>>(case),
        "a" => report::<PolynomialByte>(case),
        letter => panic!("no level {letter}"),
    }
}

fn main() {
    let mut input = String::new();
    io::stdin().read_to_string(&mut input).expect("text");
    let mut cases = vec![String::new()];
    for line in input.lines() {
        if line == "--" {
            cases.push(String::new());
        } else {
            *cases.last_mut().unwrap() += line;
            *cases.last_mut().unwrap() += "\n";
        }
    }
    let answers: Vec<String> = cases.iter().map(|case| answer(case)).collect();
    print!("{}", answers.join("--\n"));
}
