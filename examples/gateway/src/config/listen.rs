//! Where a gateway listens.
use serde::Deserialize;
use std::net::IpAddr;
use std::path::PathBuf;

#[derive(Deserialize)]
pub struct Listen {
    timeout: Option<super::Seconds>,
    #[serde(flatten)]
    at: At,
}

/* No tag tells which it is, but the names of the members. */
#[derive(Deserialize)]
#[serde(untagged)]
pub enum At {
    Port { port: u16, address: Option<IpAddr> },
    Socket { path: PathBuf },
}
