//! A second reading of the description, written from that text alone so that
//! its listings can be compared with those of the first reading.

pub mod alone;
pub mod make;
pub mod owners;
pub mod refusal;
pub mod script;
pub mod sheet;
pub mod shelf;
pub mod slots;
pub mod table;
