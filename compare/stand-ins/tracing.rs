// Stands for the crate tracing: a span that does nothing.

pub struct Span;

impl Span {
    pub fn entered(self) -> Self {
        self
    }
}

#[macro_export]
macro_rules! debug_span {
    ($($part:tt)*) => {
        $crate::Span
    };
}
