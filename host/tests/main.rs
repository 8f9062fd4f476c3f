//! The tests of what was compiled, in one program, a module for each subject. `tools/host test --test all filter::` runs those of one; the long runs are
//! ignored unless they are asked for: `tools/host test --release --test all -- --ignored --nocapture filter::`.

mod c;
mod cli;
mod common;
mod detector;
mod filter;
mod float;
mod header;
mod layout;
mod refusals;
mod settings;
mod states;
mod whole;
