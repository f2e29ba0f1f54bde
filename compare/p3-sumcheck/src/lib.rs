// Not part of the published crate p3-sumcheck: this file stands for its root and for the modules that the copied files name, as far as
// these files need them to compile. No sumcheck runs here: what only the prover's and the verifier's transcripts call has bodies that panic.
extern crate alloc;

pub mod ring_switch {
    pub mod bits;
}

pub(crate) mod data {
    use crate::error::SumcheckError;
    use crate::strategy::Basis;
    use p3_multilinear_util::point::Point;

    #[derive(Clone, Debug, Default)]
    pub struct SumcheckData<F, EF> {
        pub pow_witnesses: Vec<F>,
        pub rounds: Vec<EF>,
    }

    impl<F, EF> SumcheckData<F, EF> {
        pub fn verify_rounds<C>(
            &self,
            _challenger: &mut C,
            _sum: &mut EF,
            _rounds: usize,
            _pow_bits: usize,
            _basis: Basis,
        ) -> Result<Point<EF>, SumcheckError> {
            unimplemented!("no sumcheck runs here")
        }
    }
}

pub(crate) mod error {
    #[derive(Debug, PartialEq, Eq, thiserror::Error)]
    pub enum SumcheckError {
        #[error("no sumcheck runs here")]
        Absent,
    }
}

pub(crate) mod strategy {
    use crate::data::SumcheckData;
    use crate::transcript::ProverTranscript;
    use p3_binary_field::TowerLevel;
    use p3_field::Field;
    use p3_multilinear_util::point::Point;
    use p3_multilinear_util::poly::Poly;
    use std::marker::PhantomData;

    pub enum Basis {
        Evaluation,
    }

    pub enum VariableOrder {
        Prefix,
    }

    // A field that a table of `F` can be held in. Here that is `F` alone.
    pub trait FromTable<F>: Field {
        fn from_table(table: Vec<F>) -> Vec<Self>;

        #[allow(dead_code)]
        fn try_map_coordinates_into(
            _images: &[Self; 128],
            _input: &[F],
            _output: &mut [Self],
        ) -> bool {
            false
        }
    }

    pub trait IntoTranscriptField<F>: FromTable<F> + From<F> {
        fn into_transcript(self) -> F;
    }

    impl<F: TowerLevel> FromTable<F> for F {
        fn from_table(table: Vec<F>) -> Vec<F> {
            table
        }
    }

    impl<F: TowerLevel> IntoTranscriptField<F> for F {
        fn into_transcript(self) -> F {
            self
        }
    }

    pub struct ReprSumcheckProver<F, EF, R>(PhantomData<(F, EF, R)>);

    impl<F, EF, R> ReprSumcheckProver<F, EF, R> {
        pub fn from_repr_tables(
            _order: VariableOrder,
            _evals: Poly<R>,
            _weights: Poly<R>,
            _sum: EF,
        ) -> Self {
            unimplemented!("no sumcheck runs here")
        }

        pub fn round<C>(
            &mut self,
            _data: &mut SumcheckData<F, EF>,
            _transcript: &mut ProverTranscript<'_, C, F, EF>,
        ) -> EF {
            unimplemented!("no sumcheck runs here")
        }

        pub fn claimed_sum(&self) -> EF {
            unimplemented!("no sumcheck runs here")
        }

        pub fn weights(&self) -> Poly<R> {
            unimplemented!("no sumcheck runs here")
        }

        pub fn evals(&self) -> Poly<R> {
            unimplemented!("no sumcheck runs here")
        }

        pub fn compute_sumcheck_polynomials<C>(
            &mut self,
            _data: &mut SumcheckData<F, EF>,
            _challenger: &mut C,
            _rounds: usize,
            _pow_bits: usize,
        ) -> Point<EF> {
            unimplemented!("no sumcheck runs here")
        }
    }
}

pub(crate) mod transcript {
    use crate::strategy::Basis;
    use std::marker::PhantomData;

    pub struct SumcheckShape;

    impl SumcheckShape {
        pub fn new(_rounds: usize, _pow_bits: usize, _basis: Basis) -> Self {
            SumcheckShape
        }
    }

    pub struct ProverTranscript<'a, C, F, EF>(PhantomData<(&'a mut C, F, EF)>);

    impl<'a, C, F, EF> ProverTranscript<'a, C, F, EF> {
        pub fn new(_challenger: &'a mut C, _shape: SumcheckShape) -> Self {
            unimplemented!("no transcript runs here")
        }

        pub fn finish(self) {
            unimplemented!("no transcript runs here")
        }
    }
}

// The file src/ring_switch/bits/transcript.rs.
pub(crate) mod bits_transcript {
    use p3_multilinear_util::point::Point;
    use std::marker::PhantomData;

    pub struct BitRingSwitchShape;

    impl BitRingSwitchShape {
        pub fn new(_num_variables: usize) -> Self {
            BitRingSwitchShape
        }

        pub fn with_successor_rows(_num_variables: usize, _rows: usize) -> Self {
            BitRingSwitchShape
        }
    }

    #[derive(Debug, PartialEq, Eq, thiserror::Error)]
    pub enum TranscriptWidth {
        #[error("a tensor of {actual} rows, expected {expected}")]
        TensorRows { expected: usize, actual: usize },
        #[error("successor elements: {actual}, expected {expected}")]
        SuccessorElements { expected: bool, actual: bool },
    }

    impl TranscriptWidth {
        pub fn successor_elements(expected: bool, actual: bool) -> Self {
            TranscriptWidth::SuccessorElements { expected, actual }
        }
    }

    // What the statement takes of the successor elements: the rows of the carry and of the last.
    type Rows<'r, EF> = Option<(&'r [EF], &'r [EF])>;

    pub struct BitRingSwitchProverTranscript<'a, C, EF>(PhantomData<(&'a mut C, EF)>);

    impl<'a, C, EF> BitRingSwitchProverTranscript<'a, C, EF> {
        pub fn new(_challenger: &'a mut C, _shape: BitRingSwitchShape) -> Self {
            unimplemented!("no transcript runs here")
        }

        pub fn statement(
            &mut self,
            _point: &Point<EF>,
            _tensor: &[EF],
            _successor: Rows<'_, EF>,
        ) -> (Point<EF>, Option<EF>) {
            unimplemented!("no transcript runs here")
        }

        pub fn batched_sumcheck<T>(&mut self, _rounds: impl FnOnce(&mut C) -> T) -> T {
            unimplemented!("no transcript runs here")
        }

        pub fn surviving_claim(&mut self, _value: EF) {
            unimplemented!("no transcript runs here")
        }

        pub fn finish(self) {
            unimplemented!("no transcript runs here")
        }
    }

    pub struct BitRingSwitchVerifierTranscript<'a, C, EF>(PhantomData<(&'a mut C, EF)>);

    impl<'a, C, EF> BitRingSwitchVerifierTranscript<'a, C, EF> {
        pub fn new(_challenger: &'a mut C, _shape: BitRingSwitchShape) -> Self {
            unimplemented!("no transcript runs here")
        }

        pub fn statement(
            &mut self,
            _point: &Point<EF>,
            _tensor: &[EF],
            _successor: Rows<'_, EF>,
        ) -> Result<(Point<EF>, Option<EF>), TranscriptWidth> {
            unimplemented!("no transcript runs here")
        }

        pub fn batched_sumcheck<T>(&mut self, _rounds: impl FnOnce(&mut C) -> T) -> T {
            unimplemented!("no transcript runs here")
        }

        pub fn surviving_claim(&mut self, _value: EF) {
            unimplemented!("no transcript runs here")
        }

        pub fn abort(self) {
            unimplemented!("no transcript runs here")
        }

        pub fn finish(self) {
            unimplemented!("no transcript runs here")
        }
    }
}
