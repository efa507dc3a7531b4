//! A stand-in for `tally_wire`, of which the original files use the key and the planned sizes.

/// A key: 32 bytes, ordered as bytes.
#[derive(Clone, Copy, Debug, Default, PartialEq, Eq, PartialOrd, Ord, Hash)]
pub struct PublicKey(pub [u8; 32]);

/// Planned sizes. The comparison asks for none; these make `bounded.rs` compile.
pub mod footprint {
    use std::mem::size_of;

    /// The bytes of a list of `n` elements.
    pub const fn vec<T>(n: usize) -> usize {
        n * size_of::<T>()
    }

    /// The bytes of a table made for `n` keys, about.
    pub const fn table_made<K, V>(n: usize) -> usize {
        2 * n * (size_of::<(K, V)>() + 1)
    }

    /// The bytes planned for a table of `n` keys, about.
    pub const fn table_planned<K, V>(n: usize) -> usize {
        table_made::<K, V>(n)
    }
}
