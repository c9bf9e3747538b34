//! What several tests share: images to be admitted, and a trial of the sweeps that counts its work.
#![allow(dead_code)]

pub mod images;
pub mod trial;
