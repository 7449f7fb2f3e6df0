//! What a program is set to, which depends on the system that it runs on.
use serde::Deserialize;
use std::path::PathBuf;

#[derive(Deserialize)]
pub struct Settings {
    name: String,
    listen: Listen,
}

/// Where it listens.
#[derive(Deserialize)]
#[cfg(unix)]
pub struct Listen {
    socket: PathBuf,
}

/// Where it listens.
#[derive(Deserialize)]
#[cfg(not(unix))]
pub struct Listen {
    port: u16,
}
