//! Holds the product's static library against the second program.
//!
//! `library` calls the product; the tests compare what it answers and leaves in
//! all that is lent, and the program `speed` compares the times.

pub mod library;
