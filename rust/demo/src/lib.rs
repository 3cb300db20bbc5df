//! What tools/demo prints: a bench that reads while a correction goes in, in two lanes, step by step. script holds the mixing of the steps,
//! controller makes its calls, trace keeps what came of them, traced reads a trace that a program of Rattle wrote, plain says when an answer was
//! true; words, lanes and story tell it.
//! Nothing here is proved; only the calls of the library are, where they come from its archive.

pub mod controller;
pub mod lanes;
pub mod plain;
pub mod script;
pub mod story;
pub mod trace;
pub mod traced;
pub mod words;
