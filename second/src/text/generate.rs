//! Random texts.

pub mod circuits;
pub mod damage;
pub mod faults;
pub mod free;
pub mod namer;
pub mod sentence;
pub mod sizes;
