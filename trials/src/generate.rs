//! Seeded generators of everything that the trials hand over.

mod amendments;
mod damage;
mod edge_lists;
mod falling;
mod graphs;
mod isolated;
mod masks;
mod random;
mod sets;
mod traps;
mod unsound;

pub use amendments::{
    amended, amended_to_length, amendment_list, fill, random_amendment_list, random_amendments,
    EDGE_COMMANDS,
};
pub use damage::{
    damaged, damaged_amendments, damaged_behind, Damage, AMENDMENT_REFUSALS, REFUSALS,
};
pub use edge_lists::{closed, edge_list, mutated, random_bytes, scrambled, OPENINGS};
pub use falling::{falling, with_tail};
pub use graphs::{
    balanced_on, dense_graph, graph, rich_graph, small_graph, with_density, with_groups,
};
pub use masks::{longest, masking, with_masked};
pub use random::Rng;
pub use sets::{
    bookmark, buffer_length, number_of_sets, over_most, set_to_classify, sets_to_count, threshold,
    threshold_among, threshold_near,
};
pub use traps::{moon_moser, relabelled, small_traps, traps, Trap};
pub use unsound::{unsound, MASKED_BEYOND, UNSOUND_KINDS};
