//! A second opinion on the sizing engine: the same answers and refusals,
//! written from the documents in `docs/` alone.

pub mod calls;
pub mod check;
pub mod fault;
pub mod figure;
pub mod order;
pub mod passes;
pub mod plant;
pub mod quote;
pub mod script;
pub mod select;
pub mod study;
pub mod table_file;
pub mod text;
pub mod variables;
pub mod weights;
