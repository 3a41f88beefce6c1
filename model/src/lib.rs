//! A second opinion on the kernel of document 01 and requests 1 and 3 to 8 of document 02, written from these and
//! the readings in docs/DECISIONS.md.

pub mod again_events;
pub mod calls;
pub mod chains;
pub mod check;
pub mod circle_events;
pub mod coverage;
pub mod damage;
pub mod filter;
pub mod group_check;
pub mod group_events;
pub mod groups;
pub mod journal;
pub mod kernel;
pub mod line;
pub mod loan_events;
pub mod loans;
pub mod machine;
pub mod random;
pub mod refusals;
pub mod retire;
pub mod set_events;
pub mod store;
pub mod wrap;
