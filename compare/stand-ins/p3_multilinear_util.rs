// Stands for the crate p3_multilinear_util: points, and tables of values over the hypercube. The first coordinate of a point belongs to the
// most significant bit of an entry's place.

pub mod point {
    #[derive(Clone, Debug, PartialEq, Eq)]
    pub struct Point<F>(Vec<F>);

    impl<F: Copy> Point<F> {
        pub fn new(coordinates: Vec<F>) -> Self {
            Point(coordinates)
        }

        pub fn num_variables(&self) -> usize {
            self.0.len()
        }

        pub fn as_slice(&self) -> &[F] {
            &self.0
        }

        pub fn split_at(&self, at: usize) -> (Self, Self) {
            let (left, right) = self.0.split_at(at);
            (Point(left.to_vec()), Point(right.to_vec()))
        }
    }
}

pub mod poly {
    use p3_field::Field;
    use std::borrow::Borrow;
    use std::marker::PhantomData;

    #[derive(Clone, Debug, PartialEq, Eq)]
    pub struct Poly<F, S = Vec<F>> {
        evals: S,
        _element: PhantomData<F>,
    }

    impl<F, S: Borrow<[F]>> Poly<F, S> {
        pub fn new(evals: S) -> Self {
            Poly {
                evals,
                _element: PhantomData,
            }
        }

        pub fn as_slice(&self) -> &[F] {
            self.evals.borrow()
        }

        pub fn num_evals(&self) -> usize {
            self.as_slice().len()
        }

        pub fn num_variables(&self) -> usize {
            self.num_evals().ilog2() as usize
        }
    }

    impl<F: Field> Poly<F> {
        pub fn zero(num_variables: usize) -> Self {
            Poly::new(F::zero_vec(1 << num_variables))
        }

        // Entry i: `start`, times x for each coordinate x with its digit of i set, and times 1 + x for each other.
        pub fn new_from_point(point: &[F], start: F) -> Self {
            let mut evals = vec![start];
            for &x in point {
                evals = evals
                    .iter()
                    .flat_map(|&entry| [entry * (F::ONE + x), entry * x])
                    .collect();
            }
            Poly::new(evals)
        }

        pub fn as_mut_slice(&mut self) -> &mut [F] {
            &mut self.evals
        }

        pub fn into_evals(self) -> Vec<F> {
            self.evals
        }
    }
}
