//! What a chat tells a webhook. The text under `event` says what happened.
use serde::Deserialize;

#[derive(Debug, Deserialize)]
#[serde(tag = "event", rename_all = "kebab-case", rename_all_fields = "camelCase")]
pub enum Message {
    MessagePosted {
        channel: String,
        user: User,
        text: String,
        reply_to: Option<u64>,
    },
    MessageEdited {
        channel: String,
        message_id: u64,
        text: String,
    },
    #[serde(rename = "joined")]
    UserJoined {
        channel: String,
        user: User,
        #[serde(default)]
        is_guest: bool,
    },
    Ping,
    /// No document says it.
    #[serde(skip)]
    Draft { since: std::time::Instant },
}

#[derive(Debug, Deserialize)]
pub struct User {
    id: u64,
    name: String,
}

impl std::fmt::Display for User {
    fn fmt(&self, f: &mut std::fmt::Formatter<'_>) -> std::fmt::Result {
        write!(f, "{} ({})", self.name, self.id)
    }
}
