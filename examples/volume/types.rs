//! A volume of a container. The text under `type` tells its kind.
use serde::Deserialize;

#[derive(Deserialize)]
pub struct Volume {
    target: String,
    read_only: Option<bool>,
    #[serde(flatten)]
    kind: Kind,
}

#[derive(Deserialize)]
#[serde(tag = "type", rename_all = "lowercase")]
pub enum Kind {
    Bind {
        source: String,
        bind: Option<BindOptions>,
    },
    Volume {
        source: Option<String>,
        volume: Option<VolumeOptions>,
    },
    Tmpfs {
        tmpfs: Option<TmpfsOptions>,
    },
}

#[derive(Deserialize)]
pub struct BindOptions {
    propagation: Option<String>,
    create_host_path: Option<bool>,
}

#[derive(Deserialize)]
pub struct VolumeOptions {
    nocopy: Option<bool>,
    subpath: Option<String>,
}

#[derive(Deserialize)]
pub struct TmpfsOptions {
    size: Option<u64>,
    mode: Option<u64>,
}
