//! What the benchmarks share: the proved functions ([`exports`]), the plain ones ([`plain`]), and the clock ([`clock`]).

pub mod clock;
pub mod exports;
pub mod plain;
