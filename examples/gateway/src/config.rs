//! The configuration of a gateway: where it listens, and where it sends each request.
mod listen;

use listen::Listen;
use serde::Deserialize;

pub type Seconds = u32;

#[derive(Deserialize)]
#[serde(rename_all = "kebab-case", deny_unknown_fields)]
pub struct Config {
    listen: Vec<Listen>,
    most_open: Option<u16>,
    routes: Vec<crate::route::Route>,
}

impl Config {
    /// How many connections may be open at a time.
    pub fn most_open(&self) -> usize {
        self.most_open.map_or(512, usize::from)
    }
}
