//! Other ways to the groups, to the largest and to the reduced graph, on the same graphs.

pub mod cliquer;
#[cfg(any(igraph, cliquer))]
mod cover;
pub mod fixpoint;
pub mod igraph;
pub mod mbcenum;
pub mod mbcsear;
mod node;
mod order;
mod reduction;
pub mod sets;
