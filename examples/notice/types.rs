//! A letter or a mail. By mistake a notice with neither stamps nor a subject is both.
use facet::Facet;

#[derive(Facet)]
pub struct Notice {
    text: String,
    #[facet(flatten)]
    way: Way,
}

#[derive(Facet)]
#[facet(untagged)]
#[repr(u8)]
pub enum Way {
    Letter {
        address: String,
        stamps: Option<u8>,
    },
    Mail {
        address: String,
        subject: Option<String>,
    },
}
