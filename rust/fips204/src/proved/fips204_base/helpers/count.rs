// Made by tools/erase of crates/fips204_base/src/helpers/count.rt. Change that, not this.
//! Counts of the steps of the transforms.

/// The number of products and sums made. A butterfly makes one product, one sum and one difference, which
/// counts as a sum.
pub struct Count {
    pub(crate) products: u64,
    pub(crate) sums: u64,
}

impl Count {
    /// A count of nothing.
    pub fn new() -> Count {
        Count {
            products: 0,
            sums: 0,
        }
    }

    /// The number of products made.
    pub fn products(&self) -> u64 {
        self.products
    }

    /// The number of sums and differences made.
    pub fn sums(&self) -> u64 {
        self.sums
    }
}
