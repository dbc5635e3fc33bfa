//! igraph's maximal cliques on the signed double cover.

#[cfg(igraph)]
pub use installed::Igraph;
#[cfg(not(igraph))]
pub use missing::Igraph;

#[cfg(igraph)]
mod installed {
    use crate::peers::cover;
    use mastpickle_trials::reference::SignedGraph;
    use std::ffi::c_void;

    extern "C" {
        fn shim_igraph_new(vertices: u64, ends: *const u64, length: usize) -> *mut c_void;
        fn shim_igraph_free(graph: *mut c_void);
        fn shim_igraph_count(graph: *const c_void) -> u64;
        fn shim_igraph_callback(graph: *const c_void, counts: *mut u64);
    }

    /// The double cover as a graph of igraph.
    pub struct Igraph(*mut c_void);

    impl Igraph {
        pub fn new(graph: &SignedGraph) -> Option<Igraph> {
            let ends = cover::edges(graph);
            Some(Igraph(unsafe {
                shim_igraph_new(2 * graph.n, ends.as_ptr(), ends.len())
            }))
        }

        /// The groups for threshold 0, counted without handing them over.
        pub fn count(&self) -> u64 {
            unsafe { shim_igraph_count(self.0) / 2 }
        }

        /// The groups handed over one by one, counted by the size of the smaller side.
        pub fn by_smaller_side(&self) -> [u64; 65] {
            let mut counts = [0; 65];
            unsafe { shim_igraph_callback(self.0, counts.as_mut_ptr()) };
            counts.map(|count| count / 2)
        }
    }

    impl Drop for Igraph {
        fn drop(&mut self) {
            unsafe { shim_igraph_free(self.0) }
        }
    }
}

#[cfg(not(igraph))]
mod missing {
    use mastpickle_trials::reference::SignedGraph;

    pub enum Igraph {}

    impl Igraph {
        pub fn new(_: &SignedGraph) -> Option<Igraph> {
            None
        }

        pub fn count(&self) -> u64 {
            match *self {}
        }

        pub fn by_smaller_side(&self) -> [u64; 65] {
            match *self {}
        }
    }
}
