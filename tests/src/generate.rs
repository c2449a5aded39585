//! Random requests of every kind, the same ones for the same seed.

pub mod damage;
pub mod drafts;
pub mod random;
pub mod request;
pub mod uploads;
pub mod valid;

pub use random::Random;
pub use request::{Kind, Requests};
