//! How answers are told: how much of a list of calls, and bytes and numbers in print.

/// How much is told of a list of calls: the buffer's hash after every call or after the last four, and the record after all or not.
#[derive(Clone, Copy, Debug, PartialEq)]
pub enum Told {
    Plain,
    Whole,
    Room,
}

impl Told {
    /// The end of a call's line, with so many calls left, this one included.
    pub fn after(self, left: usize, buffer: &[u8]) -> String {
        if self == Told::Room && left > 4 {
            return "\n".to_string();
        }
        format!(" hash {}\n", hash(buffer))
    }
}

pub fn hash(bytes: &[u8]) -> u32 {
    bytes.iter().fold(2_166_136_261u32, |h, &b| h.wrapping_mul(16_777_619).wrapping_add(u32::from(b)))
}

pub fn hex(bytes: &[u8]) -> String {
    bytes.iter().map(|b| format!("{b:02x}")).collect()
}

pub fn or_dash<T: ToString>(number: Option<T>) -> String {
    number.map_or("-".into(), |n| n.to_string())
}
