//! Private functions of the reference, copied: crates/nix-wire/src/script/parse.rs of numtide/nix-wire.

pub fn unquote(s: &str) -> String {
    let s = s.trim();
    if s.starts_with('"') && s.ends_with('"') && s.len() >= 2 {
        let inner = &s[1..s.len() - 1];
        inner
            .replace("\\n", "\n")
            .replace("\\r", "\r")
            .replace("\\t", "\t")
            .replace("\\\"", "\"")
            .replace("\\\\", "\\")
    } else {
        s.to_string()
    }
}

pub fn hex_decode(hex: &str) -> Vec<u8> {
    let hex = hex.replace(' ', "");
    let mut result = Vec::with_capacity(hex.len() / 2);
    let mut chars = hex.chars();
    while let (Some(a), Some(b)) = (chars.next(), chars.next()) {
        if let Ok(byte) = u8::from_str_radix(&format!("{a}{b}"), 16) {
            result.push(byte);
        }
    }
    result
}
