//! cliquer's largest clique on the signed double cover.

#[cfg(cliquer)]
pub use installed::Cliquer;
#[cfg(not(cliquer))]
pub use missing::Cliquer;

#[cfg(cliquer)]
mod installed {
    use crate::peers::cover;
    use mastpickle_trials::reference::SignedGraph;
    use std::ffi::c_void;

    extern "C" {
        fn shim_cliquer_new(vertices: u64, ends: *const u64, length: usize) -> *mut c_void;
        fn shim_cliquer_free(graph: *mut c_void);
        fn shim_cliquer_largest(graph: *mut c_void) -> u64;
    }

    /// The double cover as a graph of cliquer.
    pub struct Cliquer(*mut c_void);

    impl Cliquer {
        pub fn new(graph: &SignedGraph) -> Option<Cliquer> {
            let ends = cover::edges(graph);
            Some(Cliquer(unsafe {
                shim_cliquer_new(2 * graph.n, ends.as_ptr(), ends.len())
            }))
        }

        /// The size of the largest group for threshold 0; 0 where there is none.
        pub fn largest(&self) -> u32 {
            unsafe { shim_cliquer_largest(self.0) as u32 }
        }
    }

    impl Drop for Cliquer {
        fn drop(&mut self) {
            unsafe { shim_cliquer_free(self.0) }
        }
    }
}

#[cfg(not(cliquer))]
mod missing {
    use mastpickle_trials::reference::SignedGraph;

    pub enum Cliquer {}

    impl Cliquer {
        pub fn new(_: &SignedGraph) -> Option<Cliquer> {
            None
        }

        pub fn largest(&self) -> u32 {
            match *self {}
        }
    }
}
