// The type store itself, unchanged, and a reader that sees its private parts.
include!(concat!(env!("VINE_SRC"), "/vine/src/structures/types.rs"));

pub mod view;
