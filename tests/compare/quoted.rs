//! Texts of any bytes in words and files: \xNN is the byte NN in hex.

/// A text for a shell's double quotes.
pub fn quoted(bytes: &[u8]) -> String {
    let plain = |byte: u8| byte.is_ascii_alphanumeric() || b"._-+~^".contains(&byte);
    let shown = |&byte: &u8| match plain(byte) {
        true => char::from(byte).to_string(),
        false => format!("\\x{byte:02X}"),
    };
    bytes.iter().map(shown).collect()
}

/// The bytes of a text.
pub fn unquoted(text: &str) -> Option<Vec<u8>> {
    let mut parts = text.split("\\x");
    let mut bytes = parts.next()?.as_bytes().to_vec();
    for part in parts {
        let (hex, rest) = part.split_at_checked(2)?;
        bytes.push(u8::from_str_radix(hex, 16).ok()?);
        bytes.extend(rest.as_bytes());
    }
    Some(bytes)
}
