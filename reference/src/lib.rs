//! A second reading of documents 01 and 02: controller, packet writer, reply reader,
//! cab box, office end, the stream between them, and the script interpreter that
//! drives them; beside it the controller once more, written for speed, and what the
//! programs share.

#![forbid(unsafe_code)]

pub mod bench;
pub mod cab;
pub mod controller;
pub mod fault;
pub mod link;
pub mod lookup;
pub mod office;
pub mod packet;
pub mod plain;
pub mod refusal;
pub mod rng;
pub mod script;
pub mod settings;
pub mod stream;
pub mod traffic;
