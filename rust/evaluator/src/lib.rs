//! The reference implementation of document 01 and of of document 02:
//! reader, writer, checker, start, iteration and plain machine, written from the
//! documents and the paper's figures 4 (evaluation) and 7 (estimation).
//!
//! The modules stand in order of dependence.

pub mod limits;

pub mod answer;
pub mod codes;
pub mod syntax;

pub mod cursor;
pub mod reader;
pub mod text;

pub mod plain_types;
pub mod readings;

pub mod cells;
pub mod checker;
pub mod estimate;
pub mod instances;
pub mod sizes;
pub mod splits;

pub mod line;
pub mod operators;
pub mod slide;
pub mod state;
pub mod validity;
pub mod value;

pub mod evaluate;
pub mod machine;
pub mod plain;

pub mod stack;
