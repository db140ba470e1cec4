//! The sample of an archive of the former default, and its copy.

use crate::room::Room;
use crate::row::{block, params};
use std::fs;
use testing::repository;

fn sample(name: &str) -> Vec<u8> {
    fs::read(repository().join("samples").join(name)).unwrap()
}

#[test]
fn the_sample_is_copied_as_it_should() {
    let room = Room::with(&sample("old.archive"));
    let ended = room.copy("floats", "1", "8N");
    ended.with_line(0, "copied 6 slots of 32 bits to slots of 146 bits: new, 110 bytes");
    assert_eq!(room.content("new"), sample("new.archive"));
}

/// The readings are in both files.
#[test]
fn the_samples_readings() {
    let (old, new) = (sample("old.archive"), sample("new.archive"));
    for (slot, readings) in READINGS.into_iter().enumerate() {
        let words = Some(readings.map(f32::to_bits).to_vec());
        assert_eq!(block(params("floats", 1, 32), &old, slot), words);
        assert_eq!(block(params("floats", 1, 0), &new, slot), words);
    }
}

const READINGS: [[f32; 4]; 6] =
    [[36.0; 4], [37.0; 4], [36.0, 36.0, 36.0, 40.0], [16.0, 18.0, 20.0, 22.0], [0.0; 4], [-18.5; 4]];
