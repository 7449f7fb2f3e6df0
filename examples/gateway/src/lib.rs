//! A gateway. What a document says of it stands in the modules `config` and `route`.
use std::net::TcpStream;
use std::time::Instant;

mod config;
mod route;

pub use config::Config;

/// A connection that is open. No document has one, so its types are not looked at.
pub struct Connection {
    pub since: Instant,
    pub stream: TcpStream,
}

/// Whether one more is taken.
pub fn is_taken(config: &Config, open: &[Connection]) -> bool {
    open.len() < config.most_open()
}
