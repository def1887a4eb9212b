//! Tests of the tool: the real program, run in folders of its own.

mod arguments;
mod check;
mod cuts;
mod drill;
mod dump;
mod format;
mod keyed;
mod output;
mod read_and_write;
mod recover;
mod replacement;
mod setting;
mod tree;
