//! Queue sizes that a split ring can have (request 5 of document 02).

use crate::frame::u16_at;

/// The largest queue size.
pub const LARGEST: u16 = 32_768;

/// Whether a queue part may have this value of 32 bytes: its size is a power of
/// two up to 32,768, or 0 while its enabled field is 0.
pub fn allowed(value: &[u8]) -> bool {
    let (size, enabled) = (u16_at(value, 0), u16_at(value, 4));
    match size {
        0 => enabled == 0,
        _ => size.is_power_of_two() && size <= LARGEST,
    }
}

#[cfg(test)]
mod tests {
    use super::*;

    fn value(size: u16, enabled: u16) -> [u8; 32] {
        let mut value = [0xff; 32];
        value[..2].copy_from_slice(&size.to_le_bytes());
        value[4..6].copy_from_slice(&enabled.to_le_bytes());
        value
    }

    #[test]
    fn sixteen_sizes_besides_0() {
        let powers: Vec<u16> = (0..16).map(|power| 1 << power).collect();
        assert_eq!((powers[0], powers[15]), (1, LARGEST));
        for enabled in [0, 1, 0x0100, 0xffff] {
            let sizes: Vec<u16> =
                (1..=u16::MAX).filter(|size| allowed(&value(*size, enabled))).collect();
            assert_eq!(sizes, powers);
        }
    }

    #[test]
    fn size_0_with_enabled_0_alone() {
        let enabled: Vec<u16> =
            (0..=u16::MAX).filter(|enabled| allowed(&value(0, *enabled))).collect();
        assert_eq!(enabled, [0]);
    }
}
