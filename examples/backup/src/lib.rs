//! A backup: what it saves, where, and when.
use serde::Deserialize;
use std::ops::Range;
use std::path::PathBuf;
use std::time::Duration;

mod address;

pub use address::Address;

#[derive(Deserialize)]
pub struct Backup {
    folders: Vec<PathBuf>,
    target: Address,
    hours: Range<u8>,
    #[serde(default, with = "humantime_serde")]
    pause: Duration,
    #[serde(flatten)]
    limit: Limit,
}

/// What ends it.
#[derive(Deserialize)]
#[serde(untagged)]
pub enum Limit {
    Time { at_most: Duration },
    Size { megabytes: u64 },
}
