//! A server, with a token, a password, a key file, or no login at all.
use facet::Facet;

#[derive(Facet)]
pub struct Server {
    host: String,
    port: u16,
    /// Absent or whole.
    #[facet(flatten)]
    login: Option<Login>,
}

#[derive(Facet)]
#[facet(untagged)]
#[repr(u8)]
pub enum Login {
    Token { token: String },
    Password { user: String, password: String },
    KeyFile { user: String, key_file: String },
}
