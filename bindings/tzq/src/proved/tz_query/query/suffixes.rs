// Generated from crates/tz_query/src/query/suffixes.rt by bindings/erase: its contracts are cut. Change that file instead.
//! Suffixes: what a line has after its nanoseconds, by the type that shows its date time. Those of
//! a few types are kept from line to line.

use tz::proved::tz::LocalTimeType;
use tz::proved::tz::inner::TextBuffer;

/// How many suffixes are kept. Of several types with the same index only the last one's is.
const COUNT: usize = 16;

/// What a line has after its nanoseconds if a local time type shows the date time: the offset, a
/// space, the type's name and LF.
#[derive(Clone, Copy)]
pub struct Suffix {
    /// The suffix is the first `len` of them. All 32 are copied at once.
    pub bytes: [u8; 32],
    pub len: usize,
    pub local_time_type: LocalTimeType,
}

/// The suffixes of the types that lines showed before, each at the index of its type.
pub struct Suffixes {
    kept: [Suffix; COUNT],
}

/// Appends the name of a type, or `-` if it has none.
fn push_type_name(line: &mut TextBuffer, local_time_type: &LocalTimeType) {
    let name = local_time_type.time_zone_designation();
    line.push_str(if name.is_empty() { "-" } else { name });
}

/// The index of a type's suffix: four bits of a product that mixes the bits of the type's offset
/// and its daylight flag.
fn index_of(local_time_type: &LocalTimeType) -> usize {
    let offset = local_time_type.ut_offset() as u32;
    let mixed = offset.wrapping_add(u32::from(local_time_type.is_dst()));
    (mixed.wrapping_mul(0x9E37_79B1) / 0x1000_0000) as usize
}

impl Suffix {
    /// The suffix of a type.
    pub fn new(local_time_type: LocalTimeType) -> Suffix {
        let mut line = TextBuffer::new();
        line.push_offset(local_time_type.ut_offset());
        line.push(b' ');
        push_type_name(&mut line, &local_time_type);
        line.push(b'\n');
        let text = line.as_bytes();
        let len = text.len();
        let mut bytes = [0; 32];
        bytes[..len].copy_from_slice(text);
        Suffix {
            bytes,
            len,
            local_time_type,
        }
    }
}

impl Suffixes {
    /// Suffixes of UTC alone.
    pub fn new() -> Suffixes {
        Suffixes {
            kept: [Suffix::new(LocalTimeType::utc()); COUNT],
        }
    }

    /// The suffix of a type, which is made unless it is kept.
    pub fn of(&mut self, local_time_type: &LocalTimeType) -> &Suffix {
        let index = index_of(local_time_type);
        if self.kept[index].local_time_type != *local_time_type {
            self.kept[index] = Suffix::new(*local_time_type);
        }
        let kept = &self.kept;
        &kept[index]
    }
}
