//! The judge asks the original and writes down what it answers.

pub mod card;
pub mod cone_list;
pub mod draw;
pub mod families;
pub mod group_shapes;
pub mod groups;
pub mod halved_sums;
pub mod handed;
pub mod lists;
pub mod log_rows;
pub mod original;
pub mod problem;
pub mod random;
pub mod ruled_norm;
pub mod ruled_sums;
pub mod seen;
pub mod standard;
pub mod survey;
pub mod text;
pub mod words;
