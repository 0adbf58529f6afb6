//! The calls of this package, held against stored answers, against the edges of their numbers and buffers, and against the header for C.
mod edges;
mod header;
mod parse;
mod stored;
