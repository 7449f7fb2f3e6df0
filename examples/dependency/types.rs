//! A dependency in a manifest: from a registry, from git, or from a path.
use facet::Facet;

#[derive(Facet)]
pub struct Dependency {
    #[facet(flatten)]
    origin: Origin,
    #[facet(default)]
    features: Vec<String>,
    #[facet(default)]
    optional: bool,
}

/// Each variant has a key that no other has.
#[derive(Facet)]
#[facet(untagged)]
#[repr(u8)]
pub enum Origin {
    Registry {
        version: String,
    },
    Git {
        git: String,
        branch: Option<String>,
        rev: Option<String>,
    },
    Path {
        path: String,
    },
}
