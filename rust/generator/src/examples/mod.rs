//! The paper's two modules as files.

pub mod listing3;
pub mod top10sum;

pub use listing3::listing3;
pub use top10sum::top10sum;
