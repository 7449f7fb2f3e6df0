#[derive(serde::Deserialize)]
pub struct Login {
    user: Strng,
}
