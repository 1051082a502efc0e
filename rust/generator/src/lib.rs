//! A seeded generator of rule files, input lines and states, whole and
//! damaged, a writer from the syntax to the strict text, and texts as an
//! ordinary editor leaves them.

pub mod random;
pub mod writer;

pub mod build;
pub mod examples;

pub mod expressions;
pub mod files;
pub mod functions;
pub mod linear;
pub mod scope;
pub mod types;

pub mod states;
pub mod values;

pub mod case;
pub mod damage;
pub mod depths;
pub mod edges;
pub mod full;
pub mod growth;
pub mod mixture;
pub mod readings;
pub mod sides;
pub mod typed;
