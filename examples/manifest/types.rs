//! The manifest of a package. Members that other tools write stand beside its own.
use serde::Deserialize;
use std::collections::BTreeMap;

#[derive(Deserialize)]
pub struct Manifest {
    name: String,
    version: String,
    #[serde(default)]
    private: bool,
    repository: Option<Repository>,
    #[serde(default)]
    dependencies: BTreeMap<String, String>,
    /// What other tools write.
    #[serde(flatten)]
    settings: BTreeMap<String, Setting>,
}

#[derive(Deserialize)]
pub struct Repository {
    r#type: String,
    url: String,
    directory: Option<String>,
}

#[derive(Deserialize)]
#[serde(untagged)]
pub enum Setting {
    Flag(bool),
    Number(f64),
    Text(String),
    List(Vec<String>),
}
