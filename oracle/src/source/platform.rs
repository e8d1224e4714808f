include!(concat!(env!("OUT_DIR"), "/platform.rs"));

#[path = "door.rs"]
pub mod door;
#[path = "parts.rs"]
pub mod parts;
