//! Two types, of which none is part of the other.
struct Letter {
    address: String,
}

struct Mail {
    subject: String,
}
