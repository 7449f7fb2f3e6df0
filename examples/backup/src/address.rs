//! The address of a machine. Code reads it from a text, which its declaration does not tell.

pub struct Address {
    pub host: String,
    pub port: u16,
}

impl TryFrom<String> for Address {
    type Error = String;

    fn try_from(text: String) -> Result<Address, String> {
        let (host, port) = text.split_once(':').ok_or("a port is missing")?;
        let port = port.parse().map_err(|_| format!("no port: {port}"))?;
        let host = host.to_string();
        Ok(Address { host, port })
    }
}
