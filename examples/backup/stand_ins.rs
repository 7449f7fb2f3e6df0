//! What documents have for types that others declare, or that code reads.

/// As `host:port`.
type Address = String;

/// As `1h 30m`, which this code makes a `Duration`.
type humantime_serde = String;
