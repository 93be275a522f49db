//! Names.

use crate::Refusal;
use std::cmp::Ordering;
use std::fmt;
use std::str::FromStr;

/// The name of an entry: 1 to 15 bytes, no byte 00 or 2F (`/`), not "." and not "..". What is none
/// is [`Refusal::OutOfRange`]. The bytes need not be UTF-8.
#[derive(Clone, Copy, PartialEq, Eq, Hash)]
pub struct Name {
    length: u8,
    /// Those past the length are zero.
    bytes: [u8; 15],
}

impl Name {
    /// The most bytes that a name has.
    pub const MOST: usize = 15;

    /// Its bytes.
    pub fn as_bytes(&self) -> &[u8] {
        &self.bytes[..usize::from(self.length)]
    }

    /// The name in sixteen bytes that are known to be one: a length, and fifteen bytes.
    pub(crate) fn known(bytes: &[u8]) -> Name {
        let mut name = Name {
            length: bytes[0],
            bytes: [0; Name::MOST],
        };
        name.bytes.copy_from_slice(&bytes[1..=Name::MOST]);
        name
    }
}

impl TryFrom<&[u8]> for Name {
    type Error = Refusal;

    fn try_from(used: &[u8]) -> Result<Name, Refusal> {
        let is_name = (1..=Name::MOST).contains(&used.len())
            && !used.contains(&0)
            && !used.contains(&b'/')
            && used != b"."
            && used != b"..";
        if !is_name {
            return Err(Refusal::OutOfRange);
        }
        let mut bytes = [0; Name::MOST];
        bytes[..used.len()].copy_from_slice(used);
        let length = used.len() as u8;
        Ok(Name { length, bytes })
    }
}

impl TryFrom<&str> for Name {
    type Error = Refusal;

    fn try_from(text: &str) -> Result<Name, Refusal> {
        Name::try_from(text.as_bytes())
    }
}

impl FromStr for Name {
    type Err = Refusal;

    fn from_str(text: &str) -> Result<Name, Refusal> {
        Name::try_from(text)
    }
}

impl AsRef<[u8]> for Name {
    fn as_ref(&self) -> &[u8] {
        self.as_bytes()
    }
}

/// By their bytes.
impl Ord for Name {
    fn cmp(&self, other: &Name) -> Ordering {
        self.as_bytes().cmp(other.as_bytes())
    }
}

impl PartialOrd for Name {
    fn partial_cmp(&self, other: &Name) -> Option<Ordering> {
        Some(self.cmp(other))
    }
}

/// As text; what is not UTF-8 is shown by the replacement character.
impl fmt::Display for Name {
    fn fmt(&self, f: &mut fmt::Formatter) -> fmt::Result {
        String::from_utf8_lossy(self.as_bytes()).fmt(f)
    }
}

/// In quotation marks, with what is not ASCII escaped.
impl fmt::Debug for Name {
    fn fmt(&self, f: &mut fmt::Formatter) -> fmt::Result {
        write!(f, "\"{}\"", self.as_bytes().escape_ascii())
    }
}
