//! Shows where two engines of the papers part: the same bytes are lent to both, and every number and byte that they leave is
//! compared.

pub mod aims;
pub mod breaks;
pub mod calls;
pub mod case;
pub mod chains;
mod code_page;
pub mod compare;
pub mod details;
pub mod engine;
pub mod explain;
pub mod fields;
mod frame;
mod journals;
mod lent;
pub mod limits;
pub mod older;
pub mod protocol;
pub mod random;
pub mod replay;
pub mod report;
mod room;
pub mod run;
pub mod scene;
pub mod seen;
pub mod serve;
pub mod shrink;
mod system;
pub mod text;
mod whole;
