//! The sizes that a caller needs, as `include/reambodkin.h` has them.

/// The longest sheet in bytes; a longer one is refused with LONG.
pub const SHEET_MAX: usize = 32_768;
/// The longest card in bytes.
pub const CARD_MAX: usize = 1_024;
/// The longest event line in bytes, with its LF.
pub const EVENT_MAX: usize = 512;
/// The longest input of a program at the desk: the three papers one behind the other.
pub const INPUT_MAX: usize = 34_304;

/// The numbers of a reply.
pub const REPLY: usize = 5;

/// Bytes with which a step never tells ROOM.
pub const STEP_OUT: usize = 1_024;
/// Entries with which an outlook never tells ROOM.
pub const OUTLOOK_OUT: usize = 4_096;
/// Entries with which why never tells ROOM.
pub const WHY_OUT: usize = 159;

/// The least space for what the desk program prints.
pub const DESK_OUT: usize = 81_920;
/// The least space for what the clerk's program prints with `why`.
pub const CLERK_OUT: usize = 49_152;
/// The least space for what it prints with `card` and with `blank`.
pub const CARD_OUT: usize = 1_024;
/// The least space for what it prints with `outlook`.
pub const NAMED_OUT: usize = 1_900_544;
/// The least space for what it prints with `check`.
pub const CHECK_OUT: usize = 8_192;

#[cfg(test)]
mod tests {
    extern crate std;

    use std::{collections::BTreeMap, string::String};

    use super::*;

    #[test]
    fn sizes_are_those_of_the_header() {
        let header = include_str!("../../include/reambodkin.h");
        let defined: BTreeMap<&str, usize> = header
            .lines()
            .filter_map(|line| line.strip_prefix("#define REAMBODKIN_")?.split_once(' '))
            .map(|(name, number)| (name, number.parse().expect("a number")))
            .collect();
        let here = [
            ("SHEET_MAX", SHEET_MAX),
            ("CARD_MAX", CARD_MAX),
            ("EVENT_MAX", EVENT_MAX),
            ("INPUT_MAX", INPUT_MAX),
            ("REPLY", REPLY),
            ("STEP_OUT", STEP_OUT),
            ("OUTLOOK_OUT", OUTLOOK_OUT),
            ("WHY_OUT", WHY_OUT),
            ("DESK_OUT", DESK_OUT),
            ("CLERK_OUT", CLERK_OUT),
            ("CARD_OUT", CARD_OUT),
            ("NAMED_OUT", NAMED_OUT),
            ("CHECK_OUT", CHECK_OUT),
        ];
        assert_eq!(defined, BTreeMap::from(here));
        assert_eq!(SHEET_MAX + CARD_MAX + EVENT_MAX, INPUT_MAX);
    }

    #[test]
    fn the_least_spaces_are_enough() {
        // 32 statuses with names of 12 bytes: a word for each, then 4,096 patterns with every name.
        let words = 32 * "abcdefghijkl=always\n".len();
        let patterns = OUTLOOK_OUT * ("outlook=\n".len() + 32 * "abcdefghijkl ".len());
        assert!(words + patterns <= NAMED_OUT);
        let circle: String = "circle=+abcdefghijkl -abcdefghijkl 194\n".into();
        assert!("refused=7 1 0\n".len() + 64 * circle.len() <= CHECK_OUT);
    }
}
