//! What a caller that has only a volume must know to open it. Document 01 has no such call.

use super::open::layout_on;
use super::{loan, Layout, Refusal};

/// What a query that is taken gives.
#[derive(Clone, Copy, Debug, PartialEq, Eq)]
pub struct Queried {
    /// The volume's parameters.
    pub layout: Layout,
    /// The length in bytes that staging must have.
    pub staging_length: usize,
}

/// The parameters in the superblock. Refused as open is while it looks at volume and superblock alone.
pub fn query(volume: &[u8], reserved: u64) -> Result<Queried, Refusal> {
    let (layout, geometry) = layout_on(loan::volume(volume)?, reserved)?;
    Ok(Queried {
        layout,
        staging_length: geometry.staging_length(),
    })
}
