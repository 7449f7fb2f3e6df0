mod login;

use login::Login;

#[derive(serde::Deserialize)]
pub struct Server {
    host: String,
    login: Option<Login>,
}
