//! Builds whole configurations, descriptor by descriptor.

/// An interface descriptor.
pub fn interface(number: u8, setting: u8, class: u8, subclass: u8) -> Vec<u8> {
    vec![9, 4, number, setting, 1, class, subclass, 0, 0]
}

/// An endpoint descriptor.
pub fn endpoint(address: u8, packet: u16) -> Vec<u8> {
    let [low, high] = packet.to_le_bytes();
    vec![7, 5, address, 5, low, high, 1]
}

/// The configuration of these descriptors.
pub fn whole(descriptors: &[Vec<u8>]) -> Vec<u8> {
    let mut s = vec![9, 2, 0, 0, 2, 1, 0, 0x80, 250];
    s.extend(descriptors.concat());
    total(&mut s);
    s
}

pub fn total(s: &mut [u8]) {
    let n = (s.len() as u16).to_le_bytes();
    if s.len() > 3 {
        s[2..4].copy_from_slice(&n);
    }
}
