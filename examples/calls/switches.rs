//! Switches, by their names or as maps, which read only what nothing before them does.
use serde::Deserialize;
use std::collections::BTreeMap;

#[derive(Deserialize)]
#[serde(untagged)]
pub enum Switches {
    Named(Named),
    States(BTreeMap<bool, u8>),
    Levels(BTreeMap<bool, u8>),
}

#[derive(Deserialize)]
pub struct Named {
    r#true: Option<u8>,
    r#false: Option<u8>,
}
