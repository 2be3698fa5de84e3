//! The role engine, a second time: written from the outline alone, so
//! that another implementation can be compared with it call by call.
//!
//! Raw numbers are decoded into ordinary values, the decision falls there, and
//! the values are encoded back. A quoted sentence above a function is the
//! outline's own and says which rule the function answers for.

pub mod calls;
pub mod chain;
pub mod conditions;
pub mod effective;
pub mod falls;
pub mod numbers;
pub mod policy;
pub mod program;
pub mod records;
pub mod refusal;
pub mod sets;
pub mod soundness;
pub mod state;
pub mod text;

pub use calls::{
    activate, appoint, call, chain, effective, environment, fresh, invoke, logout, revoke,
    withdraw, Call,
};
pub use policy::Tables;
pub use program::run;
pub use refusal::{Answer, Refusal};
