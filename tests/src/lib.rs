//! Tests of the order line from outside: the second implementation, the calls as both sides offer
//! them, and the groups of cases on which the two are compared.

pub mod calls;
pub mod comparison;
pub mod damage;
pub mod delivery;
#[cfg(feature = "fuzz")]
mod fuzz;
pub mod give_up;
#[cfg(test)]
mod header;
pub mod interface;
#[cfg(feature = "linked")]
pub mod link;
pub mod program;
pub mod reference;
pub mod rng;
pub mod suppositions;
pub mod table;
