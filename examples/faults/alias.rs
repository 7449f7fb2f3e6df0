//! A member of two names.
use serde::Deserialize;

#[derive(Deserialize)]
struct Person {
    #[serde(alias = "surname")]
    name: String,
}
