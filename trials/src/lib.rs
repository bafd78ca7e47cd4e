//! The proved library beside the twin in one process: the door's calls, and the twin's chip and dock in the door's layout of bytes.

#[path = "../../include/door.rs"]
pub mod door;

pub mod chip;
pub mod dock;
pub mod traffic;
