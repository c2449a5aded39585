//! The independent reference of Cellfacet: signed AVM transactions are checked, read,
//! written, merged and uploaded by the format description alone, with no code of the proved
//! library. `lines` holds the request and answer lines that both are compared by, and
//! `generate` makes such requests at random.

pub mod cursor;
pub mod draft;
pub mod element;
pub mod encode;
pub mod entries;
pub mod generate;
pub mod independent;
pub mod lines;
pub mod order;
pub mod phone;
pub mod refusal;
pub mod script;
pub mod transaction;
pub mod upload;
pub mod writer;

pub use draft::{fill, merge};
pub use entries::{entry, rows};
pub use refusal::{Number, Refusal};
pub use transaction::{check, read, Transaction};
pub use upload::Upload;
pub use writer::Writer;
