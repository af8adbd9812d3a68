//! The sizes of a device of 16,384 alarms in 64 areas, with segments of 16 MiB.
pub const ALARMS: usize = 16_384;
pub const AREAS: usize = 64;
pub const AREA: usize = 4801;
pub const ALARM: usize = 182;
pub const IMAGE: usize = 16 + AREA * AREAS + ALARM * ALARMS;
pub const SEGMENT: usize = 16_777_216;
pub const OPEN: u8 = 0xA5;
