include!(concat!(env!("OUT_DIR"), "/fixed.rs"));

#[path = "door.rs"]
pub mod door;
#[path = "parts.rs"]
pub mod parts;
