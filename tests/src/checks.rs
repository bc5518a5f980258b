//! The checks, a module for each part of the product.

pub mod classes;
pub mod coordinator;
pub mod hours;
pub mod image;
pub mod message;
pub mod program;
pub mod quorum;
pub mod replica;
pub mod station;
pub mod station_program;
pub mod turns;
