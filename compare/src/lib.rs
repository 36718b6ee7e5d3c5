//! Two judges of SRF files, one proved and one independent, and the inputs to compare them with.
pub mod ascii;
pub mod correct;
pub mod judge;
pub mod layout;
pub mod make;
pub mod proved;
pub mod random;
