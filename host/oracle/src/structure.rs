pub mod cache_change;
pub mod guid;
pub mod locator;
pub mod number_set;
pub mod sequence_number;
