//! What the test files share. Each uses a part of it.
#![allow(dead_code)]

pub mod answers;
pub mod cases;
pub mod damage;
pub mod random;
pub mod reference;
pub mod vectors;
