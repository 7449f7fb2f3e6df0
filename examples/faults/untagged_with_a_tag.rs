//! An enum that is told in two ways.
use facet::Facet;

#[derive(Facet)]
#[facet(untagged, tag = "kind")]
enum Event {
    Created { order: u64 },
    Paid { amount: u64 },
}
