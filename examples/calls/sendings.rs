//! What is sent, and what comes back: by mistake a document may be of two kinds.
use serde::Deserialize;

/// Told apart if a weight or stamps were required.
#[derive(Deserialize)]
#[serde(untagged)]
pub enum Sending {
    Parcel(Box<Parcel>),
    Letter {
        to: String,
        #[serde(default)]
        stamps: u8,
        note: Option<String>,
    },
}

#[derive(Deserialize)]
#[serde(rename_all = "camelCase")]
pub struct Parcel {
    to: String,
    weight_in_grams: Option<u32>,
    note: Option<String>,
}

/// Told apart by no field.
#[derive(Deserialize)]
#[serde(untagged)]
pub enum Reply {
    Accepted { to: String, note: Option<String> },
    Declined { to: String, note: Option<String> },
}
