//! A variant for tags that no variant has.
use serde::Deserialize;

#[derive(Deserialize)]
#[serde(tag = "kind")]
enum Event {
    Created { order: u64 },
    #[serde(other)]
    Unknown,
}
