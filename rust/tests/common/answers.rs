//! The code that a call answers, by documents 01 and 02: bits 0 to 7 the number; under 4 and 11, where a word is off the ring, bits 8 to 11
//! the part, 12 to 15 the record and 16 to 27 the index of the first such word. Parts and records go by the vectors' words. Written out here
//! once more: it shares no code with the package.

const RECORDS: [(&str, u32); 5] =
    [("public_key", 1), ("seeded_public_key", 2), ("secret_key", 3), ("sealed_entry", 4), ("encapsulation", 5)];
const PARTS: [(&str, u32); 5] = [("a", 1), ("b", 2), ("stored_inverse", 3), ("c1", 4), ("c2", 5)];

fn named(names: &[(&str, u32)], name: &str) -> u32 {
    names.iter().find(|(known, _)| *known == name).unwrap_or_else(|| panic!("no {name} in a location")).1
}

fn name<'a>(names: &[(&'a str, u32)], code: u32) -> &'a str {
    names.iter().find(|(_, known)| *known == code).map_or("?", |(name, _)| name)
}

/// A word that is off the ring.
pub fn located(number: u32, record: &str, part: &str, index: usize) -> u32 {
    number | named(&PARTS, part) << 8 | named(&RECORDS, record) << 12 | (index as u32) << 16
}

/// With the location in the vectors' words, RECORD PART INDEX, or nothing.
pub fn code(number: u32, location: &str) -> u32 {
    match location.split(' ').collect::<Vec<_>>()[..] {
        [""] => number,
        [record, part, index] => located(number, record, part, index.parse().expect("an index in a location")),
        _ => panic!("no location: {location}"),
    }
}

pub fn number(code: u32) -> u32 {
    code & 0xff
}

/// A code for people: `4 (secret_key b 17)`.
pub fn shown(code: u32) -> String {
    if code == number(code) {
        return code.to_string();
    }
    let (part, record, index) = (name(&PARTS, code >> 8 & 0xf), name(&RECORDS, code >> 12 & 0xf), code >> 16);
    format!("{} ({record} {part} {index})", number(code))
}
