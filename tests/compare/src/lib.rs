//! The library, through its C header, and the programs `plan` and `run`, each
//! beside the reference: the same inputs, every answer compared.
//!
//! A suite is a module with a function `case` that takes a seed. The same seed
//! gives the same case.

pub mod caller;
pub mod counts;
pub mod expected;
pub mod library;
pub mod machine;
pub mod pair;
pub mod tables;
pub mod watch;

pub mod blocks;
pub mod calls;
pub mod programs;
pub mod rollover;
