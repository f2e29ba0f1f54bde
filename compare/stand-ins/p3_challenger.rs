// Stands for the crate p3_challenger: the names of its traits alone, since no transcript runs here.

pub trait FieldChallenger<F> {}

pub trait GrindingChallenger {
    type Witness;
}

pub mod fs {
    pub trait TranscriptField: p3_field::Field {}
}
