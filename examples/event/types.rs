//! An event of a queue, of two kinds and in two versions.
use serde::Deserialize;

#[derive(Deserialize)]
pub struct Event {
    id: String,
    #[serde(flatten)]
    body: Body,
    #[serde(flatten)]
    version: Version,
}

#[derive(Deserialize)]
#[serde(tag = "kind", content = "payload", rename_all = "snake_case")]
pub enum Body {
    Created { order: u64, customer: String },
    Paid { order: u64, amount: u64 },
}

/// Told by what `meta` holds.
#[derive(Deserialize)]
#[serde(untagged)]
pub enum Version {
    V1 { meta: MetaV1 },
    V2 { meta: MetaV2 },
}

#[derive(Deserialize)]
pub struct MetaV1 {
    source: String,
}

#[derive(Deserialize)]
pub struct MetaV2 {
    trace: Trace,
}

#[derive(Deserialize)]
pub struct Trace {
    id: String,
    span: u64,
}
