//! A second implementation, the library's C interface, generators of cases, and the trials over them.

pub mod generate;
pub mod interface;
pub mod options;
pub mod reference;
pub mod run;
pub mod system;
pub mod trials;
pub mod worked;
