//! A second implementation of the whole product, written for clearness and by other methods than the library's.

mod amendment_list;
mod classify;
mod counts;
mod edge_list;
mod graph;
mod groups;
mod pages;
mod program;
mod reduce;

pub use classify::{classify, Verdict};
pub use counts::{check_count, count, counts_of};
pub use edge_list::{decode, encode};
pub use graph::{check, vertices, Edge, SignedGraph};
pub use groups::{groups, groups_by_cover, groups_by_subsets, left_first, meets, split};
pub use pages::{
    comes_before, largest, list_page, listing_order, page_of, record_at, Bookmark, Page,
};
pub use program::{program, MOST_INPUT};
pub use reduce::{fits, reduce, round, rounds, Reduced, Round};
