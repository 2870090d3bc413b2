//! A plain reading of the paper: messages and tables as trees of items, with
//! no thought for speed, to compare the program with.

pub mod differences;
pub mod explain;
pub mod forms;
pub mod items;
pub mod messages;
pub mod salvage;
pub mod sheets;
pub mod tables;
pub mod wanted;
