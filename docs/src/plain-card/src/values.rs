//! The values of a member's parts.

use crate::part::{Part, PciField, MAX_QUEUES};
use crate::queue;

/// The values of a member's parts, each whole, its reserved fields too. There
/// are always four queues here; a smaller setup neither shows nor changes the
/// values of the others.
#[derive(Clone, Debug, Default, PartialEq, Eq)]
pub struct Values {
    /// 0x100.
    pub device_features: [u8; 16],
    /// 0x101.
    pub driver_features: [u8; 16],
    /// 0x102, offset 0.
    pub device_feature_select: [u8; 4],
    /// 0x102, offset 8.
    pub driver_feature_select: [u8; 4],
    /// 0x102, offset 16.
    pub config_vector: [u8; 2],
    /// 0x102, offset 22.
    pub queue_select: [u8; 2],
    /// 0x103.
    pub device_status: [u8; 1],
    /// 0x104, by index.
    pub queues: [[u8; 32]; MAX_QUEUES as usize],
    /// 0x105, by index.
    pub notifies: [[u8; 8]; MAX_QUEUES as usize],
}

impl Values {
    /// The value of a part.
    pub fn get(&self, part: Part) -> &[u8] {
        match part {
            Part::DeviceFeatures => &self.device_features,
            Part::DriverFeatures => &self.driver_features,
            Part::PciCommon(PciField::DeviceFeatureSelect) => &self.device_feature_select,
            Part::PciCommon(PciField::DriverFeatureSelect) => &self.driver_feature_select,
            Part::PciCommon(PciField::ConfigVector) => &self.config_vector,
            Part::PciCommon(PciField::QueueSelect) => &self.queue_select,
            Part::DeviceStatus => &self.device_status,
            Part::Queue(index) => &self.queues[usize::from(index)],
            Part::QueueNotify(index) => &self.notifies[usize::from(index)],
        }
    }

    /// Whether every queue part of a member with `queues` queues may have its
    /// value.
    pub fn queues_allowed(&self, queues: u8) -> bool {
        self.queues.iter().take(queues.into()).all(|value| queue::allowed(value))
    }

    /// The value of a part, to be changed.
    pub fn get_mut(&mut self, part: Part) -> &mut [u8] {
        match part {
            Part::DeviceFeatures => &mut self.device_features,
            Part::DriverFeatures => &mut self.driver_features,
            Part::PciCommon(PciField::DeviceFeatureSelect) => &mut self.device_feature_select,
            Part::PciCommon(PciField::DriverFeatureSelect) => &mut self.driver_feature_select,
            Part::PciCommon(PciField::ConfigVector) => &mut self.config_vector,
            Part::PciCommon(PciField::QueueSelect) => &mut self.queue_select,
            Part::DeviceStatus => &mut self.device_status,
            Part::Queue(index) => &mut self.queues[usize::from(index)],
            Part::QueueNotify(index) => &mut self.notifies[usize::from(index)],
        }
    }
}

#[cfg(test)]
mod tests {
    use super::*;
    use crate::part::inventory;

    #[test]
    fn a_value_has_the_length_of_its_part() {
        let mut values = Values::default();
        for part in inventory(MAX_QUEUES) {
            assert_eq!(values.get(part).len(), part.length() as usize);
            values.get_mut(part).fill(0xa5);
            assert!(values.get(part).iter().all(|byte| *byte == 0xa5));
        }
    }
}
