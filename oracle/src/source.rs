//! The source's own files, twice: with document 01's functions, and with the platform's. `build.rs`
//! makes both from docs/src, and says what it changes. `door.rs` leads into the kinds of each,
//! `parts.rs` to what they share.

#[allow(dead_code, unused_imports)]
pub mod fixed;
#[allow(dead_code, unused_imports)]
pub mod platform;
