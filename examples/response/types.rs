//! The response of an API: a page, which has pages, or why there is none.
use facet::Facet;

#[derive(Facet)]
#[repr(u8)]
pub enum Response {
    Ok(Page),
    Err(Failure),
}

#[derive(Facet)]
pub struct Page {
    title: String,
    next: Option<Box<Self>>,
    below: Vec<Page>,
}

#[derive(Facet)]
#[facet(rename_all = "camelCase")]
pub struct Failure {
    status_code: u16,
    reason: Reason,
    trace: Option<String>,
}

#[derive(Facet)]
#[facet(rename_all = "SCREAMING_SNAKE_CASE")]
#[repr(u8)]
pub enum Reason {
    NotFound,
    RateLimited { retry_after: u32 },
    Other(String),
}
