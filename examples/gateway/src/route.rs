//! Where a request goes, by how its path begins.
use serde::Deserialize;
use std::path::PathBuf;

#[derive(Deserialize)]
pub struct Route {
    prefix: String,
    #[serde(flatten)]
    target: Target,
}

/// A route with a host alone is ambiguous: serde would take the first variant.
#[derive(Deserialize)]
#[serde(untagged)]
pub enum Target {
    Proxy { host: String, port: Option<u16> },
    Redirect { host: String, permanent: Option<bool> },
    Files { folder: PathBuf },
}
