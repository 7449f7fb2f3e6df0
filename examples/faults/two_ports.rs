//! Two members of one name.
use serde::Deserialize;

#[derive(Deserialize)]
struct Server {
    #[serde(flatten)]
    endpoint: Endpoint,
    port: u16,
}

#[derive(Deserialize)]
struct Endpoint {
    host: String,
    port: u16,
}
