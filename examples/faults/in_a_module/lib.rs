//! The module `server::login` has the fault. What no root needs has another.
mod server;

pub struct Cached<T> {
    since: std::time::Instant,
    value: T,
}
