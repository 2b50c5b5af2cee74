//! What the tests share, each its part: a printer of trees as JSON, the texts of the library's tables, and random texts.
#![allow(dead_code)]
pub mod printer;
pub mod random;
pub mod tables;
