//! Vectors: for each site, the stamp up to which it has been heard.

use crate::limits::SITES;

/// Four entries, one for each site; entries of absent sites stay 0.
pub type Vector = [u64; SITES];

/// The all-zero start.
pub const ZERO: Vector = [0; SITES];

/// Raises `vector` to the entrywise larger of itself and `other`.
#[inline]
pub fn raise(vector: &mut Vector, other: &Vector) {
    for (entry, with) in vector.iter_mut().zip(other) {
        *entry = (*entry).max(*with);
    }
}

/// Raises one entry of `vector` to at least `stamp`.
#[inline]
pub fn raise_entry(vector: &mut Vector, site: usize, stamp: u64) {
    vector[site] = vector[site].max(stamp);
}

/// Whether every entry of `vector` is at least that of `other`.
#[inline]
pub fn covers(vector: &Vector, other: &Vector) -> bool {
    vector.iter().zip(other).all(|(entry, with)| entry >= with)
}

/// The same for every entry other than that of `site`.
#[inline]
pub fn covers_besides(site: usize, vector: &Vector, other: &Vector) -> bool {
    (0..SITES).all(|at| at == site || vector[at] >= other[at])
}

/// The lowest-numbered site whose entry of `vector` is below that of `other`,
/// and the entry of `other`. Only for a vector that doesn't cover the other.
pub fn first_short(vector: &Vector, other: &Vector) -> (usize, u64) {
    first_short_of(0..SITES, vector, other)
}

/// The same of the sites other than `site`.
pub fn first_short_besides(site: usize, vector: &Vector, other: &Vector) -> (usize, u64) {
    first_short_of((0..SITES).filter(|at| *at != site), vector, other)
}

/// The same of some sites in rising order.
#[inline]
fn first_short_of(
    mut sites: impl Iterator<Item = usize>,
    vector: &Vector,
    other: &Vector,
) -> (usize, u64) {
    let site = sites.find(|at| vector[*at] < other[*at]).expect("an entry is too small");
    (site, other[site])
}

/// The greatest entry.
#[inline]
pub fn greatest(vector: &Vector) -> u64 {
    vector.iter().fold(0, |most, entry| most.max(*entry))
}
