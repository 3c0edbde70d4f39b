//! The mount options.

use super::types::{Policy, Refusal};

pub const MAX_LENGTH: usize = 255;

#[derive(Clone, Copy, Debug, PartialEq, Eq)]
pub struct Options {
    pub policy: Policy,
    pub explicit_open: bool,
}

/// Pieces between commas; empty ones are skipped and the last policy wins. `explicit-open` may stand anywhere, and again.
pub fn parse(text: &[u8]) -> Result<Options, Refusal> {
    if text.len() > MAX_LENGTH {
        return Err(Refusal::Options);
    }
    let mut options = Options { policy: Policy::RemountReadOnly, explicit_open: false };
    for piece in text.split(|&byte| byte == b',').filter(|piece| !piece.is_empty()) {
        match piece {
            b"errors=remount-ro" => options.policy = Policy::RemountReadOnly,
            b"errors=zone-ro" => options.policy = Policy::ZoneReadOnly,
            b"errors=zone-offline" => options.policy = Policy::ZoneOffline,
            b"errors=repair" => options.policy = Policy::Repair,
            b"explicit-open" => options.explicit_open = true,
            _ => return Err(Refusal::Options),
        }
    }
    Ok(options)
}
