//! A small model of document 01, written from its sentences: options that agree, and no link followed.

pub mod calls;
pub mod problem;
pub mod replay;
pub mod search;
pub mod table;
pub mod text;
