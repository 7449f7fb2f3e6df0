//! A step of a CI job. It runs a command or uses an action, and may be tried again.
use facet::Facet;
use std::collections::HashMap;

type Seconds = u32;

#[derive(Facet)]
pub struct Step {
    name: Option<String>,
    #[facet(rename = "if")]
    condition: Option<String>,
    #[facet(flatten)]
    action: Action,
    /// Absent or whole: there is no `delay` without `attempts`.
    #[facet(flatten)]
    retry: Option<Retry>,
    /// Where the step stands in its file. No document says it.
    #[facet(skip)]
    line: usize,
}

#[derive(Facet)]
#[facet(untagged)]
#[repr(u8)]
pub enum Action {
    Run {
        run: String,
        shell: Option<String>,
    },
    Uses {
        uses: String,
        with: Option<HashMap<String, String>>,
    },
}

#[derive(Facet)]
pub struct Retry {
    attempts: u8,
    delay: Option<Seconds>,
}

impl Step {
    /// Whether it may be tried again.
    pub fn is_retried(&self) -> bool {
        self.retry.is_some()
    }
}
