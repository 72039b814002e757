// Facts of the code, from the papers or counted outside: the tests of the independent
// implementation (tests/tests/repair.rs) count them anew, and those of the library rely on them.

/// The live counts of a clean frame at limits 0 to 12: of the zero word's frame they are the
/// prefixes with so many ones or fewer among their coded bits.
pub const CLEAN: [u64; 13] =
    [81, 81, 131, 279, 569, 1_573, 3_495, 7_611, 17_851, 42_557, 97_265, 222_823, 514_948];

/// Frames of different words differ in so many data bits or more.
pub const LEAST_DISTANCE: u32 = 28;

/// The word whose frame has so few ones, as have those of its 31 shifted copies.
pub const LIGHTEST: u64 = 0x546c3;

/// The margin where so many flips, within the limit, leave a word the nearest. Every other word is
/// too far away to be within the limit, so the next is taken as limit + 1.
pub fn margin(limit: u32, flips: u32) -> u32 {
    assert!(flips <= limit && LEAST_DISTANCE - flips > limit, "limit {limit}, {flips} flips");
    limit + 1 - flips
}
