//! The policies of document 01's worked cases, byte by byte.

/// Policy E of the worked cases: principals 0 and 1, one role, whose only member is its owner 0.
pub const E: [u8; 29] = [
    0x52, 0x58, 0x54, 0x01, 0x00, 0x02, 0x01, 0x00, 0x01, 0x03, 0, 0, 0, 0x03, 0, 0, 0, 0x01, 0, 0,
    0, 0, 0, 0, 0, 0, 0, 0, 0,
];

/// Policy F: two roles of owners 0 and 1; role 0 takes role 1, role 1 has member 1.
pub const F: [u8; 51] = [
    0x52, 0x58, 0x54, 0x01, 0x00, 0x02, 0x02, // head
    0x00, 0x01, 0x03, 0, 0, 0, 0x03, 0, 0, 0, 0x00, 0, 0, 0, 0x02, 0, 0, 0, 0, 0, 0,
    0, // role 0
    0x01, 0x01, 0x03, 0, 0, 0, 0x03, 0, 0, 0, 0x02, 0, 0, 0, 0x00, 0, 0, 0, 0, 0, 0,
    0, // role 1
];
