//! An alarm: when it rings next, and how.
use serde::Deserialize;

#[derive(Deserialize)]
pub struct Alarm {
    name: Option<String>,
    next: Next,
    sound: Sound,
}

/// In so many minutes, or at a time. Null is no time: it never rings.
#[derive(Deserialize)]
#[serde(untagged)]
pub enum Next {
    In(u32),
    At(Option<Time>),
}

#[derive(Deserialize)]
pub struct Time {
    hour: u8,
    /// Where no day is said, it rings on each.
    #[serde(flatten)]
    day: Option<Day>,
}

#[derive(Deserialize)]
#[serde(untagged)]
pub enum Day {
    Weekday { weekday: String },
    Date { month: u8, day: u8 },
}

/// The usual sound by how loud it is, or a sound that is made.
#[derive(Deserialize)]
#[serde(untagged)]
pub enum Sound {
    Usual(f32),
    Made(Tone),
}

#[derive(Deserialize)]
pub enum Tone {
    Silent,
    Beep { times: u8 },
    Song(String),
}
