use crate::ffi;

/// The direction in which a block is read.
#[derive(Clone, Copy, Debug, PartialEq, Eq)]
pub enum IterationOrder {
    Ascending,
    Descending,
}

impl IterationOrder {
    pub(crate) fn word(self) -> u64 {
        match self {
            IterationOrder::Ascending => ffi::ASCENDING,
            IterationOrder::Descending => ffi::DESCENDING,
        }
    }
}
