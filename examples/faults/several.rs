//! Each fault that `Job` needs is told, and that of `Unused` is not.
#[derive(Deserialize)]
struct Job {
    #[serde(colour)]
    name: String,
    source: Source,
    retry: Retry,
    limit: Limit,
}

#[derive(Deserialize)]
#[serde(tag = "type")]
enum Source {
    File { path: PathBuf },
    Http { url: Url, port: Prt },
}

struct Retry {
    attempts: u8,
}

struct Limit(u8);

impl<'de> Deserialize<'de> for Limit {
    fn deserialize<D: Deserializer<'de>>(input: D) -> Result<Limit, D::Error> {
        u8::deserialize(input).map(|limit| Limit(limit.min(9)))
    }
}

struct Unused {
    when: SystemClock,
}
