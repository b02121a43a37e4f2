//! An office over ordered maps in plain Rust, its desk, and the filings of crate office_bench in their orders; and an office's
//! rules over a plain list.

pub mod afresh;
pub mod arithmetic;
pub mod desk;
pub mod filings;
pub mod office;
pub mod orders;
pub mod returns;
pub mod spelling;
