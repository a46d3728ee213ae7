//! The code of both README.md and of docs/GUIDE.md.
#![doc = include_str!("../../../README.md")]
#![doc = include_str!("../README.md")]
#![doc = include_str!("../../../docs/GUIDE.md")]
