//! The library's functions as include/forkhemit.h declares them: `build.rs` writes them, for the tests and the benchmarks.
#![allow(dead_code)]

include!(concat!(env!("OUT_DIR"), "/library.rs"));
