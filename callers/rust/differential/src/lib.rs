//! Holds the access base against an independent implementation (`oracle`): random sessions, damaged bases, and
//! sessions that lead to the counts. Every reply, every byte of the base and every number of a WHEN list is compared.

pub mod counts;
pub mod damage;
pub mod generator;
pub mod image;
pub mod neighbours;
pub mod pair;
pub mod random;
pub mod session;
pub mod tally;
pub mod text;
pub mod world;
