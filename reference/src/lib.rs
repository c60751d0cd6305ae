//! The second program: the protocol of docs/PROTOCOL.md in plain Rust, to check the proved code against.

pub mod bench;
pub mod check;
pub mod codec;
pub mod compare;
pub mod compare_box;
pub mod effects;
pub mod generate;
pub mod home;
pub mod keeper;
pub mod numbers;
pub mod program;
pub mod random;
pub mod replay;
pub mod rings;
pub mod script;
pub mod signal_box;
pub mod yard;
