//! A feed: a list of items, some with a picture or a film.
use serde::Deserialize;

type Url = String;
type Items = Vec<Item>;

#[derive(Deserialize)]
pub struct Feed(Items);

#[derive(Deserialize)]
#[serde(rename_all = "camelCase")]
pub struct Item {
    item_id: Id,
    title: String,
    #[serde(default)]
    tags: Vec<String>,
    published_at: Option<String>,
    media: Option<Media>,
}

/// In a document an id is its number.
#[derive(Deserialize)]
pub struct Id(u64);

#[derive(Deserialize)]
#[serde(tag = "type", content = "of", rename_all = "lowercase")]
pub enum Media {
    Picture { url: Url, size: (u32, u32) },
    Film(Url),
    /// It was there once.
    Removed,
}
