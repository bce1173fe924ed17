//! A second writing of document 01 ("the paper") and orders 1 to 3 and 5 to 7 of document 02, to compare other definitions with.
//!
//! One module for each part of the paper. Nothing here is made to be fast.

pub mod blocks;
pub mod columns;
pub mod combinations;
pub mod deck;
pub mod filling;
pub mod grammar;
pub mod halves;
pub mod judge;
pub mod limits;
pub mod parts;
pub mod permitted;
pub mod plan;
pub mod reel;
pub mod run;
pub mod spanned;
pub mod twins;

pub use halves::{pack, unpack};
pub use judge::{judge, Judged};
pub use plan::{plan, plan_into, Entry, Planned};
pub use run::{run, Ran};
pub use twins::{twins, Twins};

/// A refusal number of the paper's table, its place, and for 3, 4 and 7 the column on that card; 0 for all others.
#[derive(Clone, Copy, Debug, PartialEq, Eq)]
pub struct Refused {
    pub number: usize,
    pub place: usize,
    pub column: usize,
}

impl Refused {
    /// A refusal that has no column.
    pub fn at(number: usize, place: usize) -> Refused {
        Refused { number, place, column: 0 }
    }
}

/// Go on if there is no place at which `number` applies, else refuse at it.
pub fn refuse_at(number: usize, place: Option<usize>) -> Result<(), Refused> {
    place.map_or(Ok(()), |place| Err(Refused::at(number, place)))
}

/// Go on if there is no card and column at which `number` applies, else refuse there.
pub fn refuse_on(number: usize, card_and_column: Option<(usize, usize)>) -> Result<(), Refused> {
    card_and_column.map_or(Ok(()), |(place, column)| Err(Refused { number, place, column }))
}

#[cfg(test)]
mod continuations;
#[cfg(test)]
mod tests;
