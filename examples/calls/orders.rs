//! Orders, whose items say that they have no other members.
use serde::Deserialize;

#[derive(Deserialize)]
pub struct Order {
    number: u32,
    items: Vec<Item>,
}

#[derive(Deserialize)]
#[serde(deny_unknown_fields)]
pub struct Item {
    name: String,
    count: Option<u32>,
}
