//! Checking a supplier's listing (document 02, C-18).

use crate::listing::listing;

const END_OF_LINE: u8 = 10;

/// The number, from 1, of the first line in which a supplied listing departs from the one that the
/// trace requires; None if it passes. A missing line departs at its number, and so does a surplus
/// one.
pub fn departure(trace: &[u8], supplied: &[u8]) -> Option<u64> {
    let required = listing(trace);
    first_difference(required.as_bytes(), supplied)
}

/// The number of the first line that is not in both texts, or not the same.
pub fn first_difference(required: &[u8], supplied: &[u8]) -> Option<u64> {
    let (required, supplied) = (lines(required), lines(supplied));
    let most = required.len().max(supplied.len());
    let place = (0..most).find(|place| required.get(*place) != supplied.get(*place))?;
    Some(place as u64 + 1)
}

/// The lines of a text, each with its byte 10; a last piece without byte 10 is a line too.
pub fn lines(text: &[u8]) -> Vec<&[u8]> {
    let mut lines = Vec::new();
    let mut first = 0;
    for (place, byte) in text.iter().enumerate() {
        if *byte == END_OF_LINE {
            lines.push(&text[first..=place]);
            first = place + 1;
        }
    }
    if first < text.len() {
        lines.push(&text[first..]);
    }
    lines
}

/// What is printed for a departure, or if there is none.
pub fn answer(departure: Option<u64>) -> String {
    match departure {
        None => "passes".to_string(),
        Some(line_number) => format!("departs at line {line_number}"),
    }
}

#[cfg(test)]
mod tests {
    use super::*;

    /// Document 01's.
    const TRACE: &[u8] = b"S    16     2     1     2     4     4     4\n\
        A     5\nA     5\nA     2\nR\nA    16\n";
    const LISTING: &[u8] = b"B        30        60\nR     0     1     4\nX         6     9\n";

    #[test]
    fn the_required_listing_passes() {
        assert_eq!(departure(TRACE, LISTING), None);
        assert_eq!(departure(b"", b""), None);
        assert_eq!(departure(b"\n\n", b""), None);
    }

    #[test]
    fn every_other_byte_departs_in_its_line() {
        for place in 0..LISTING.len() {
            let line_number = match place {
                0..=21 => 1,
                22..=41 => 2,
                _ => 3,
            };
            for byte in 0..=255 {
                let mut supplied = LISTING.to_vec();
                supplied[place] = byte;
                let expected = (byte != LISTING[place]).then_some(line_number);
                assert_eq!(
                    departure(TRACE, &supplied),
                    expected,
                    "{byte} at place {place}"
                );
            }
        }
    }

    #[test]
    fn every_cut_departs_where_a_line_is_missing_or_has_no_byte_10() {
        for length in 0..LISTING.len() {
            let line_number = match length {
                0..=21 => 1,
                22..=41 => 2,
                _ => 3,
            };
            assert_eq!(
                departure(TRACE, &LISTING[..length]),
                Some(line_number),
                "{length} bytes"
            );
        }
    }

    #[test]
    fn a_surplus_line_departs_at_its_number() {
        for surplus in ["\n", "X", "X         6     9\n", "\0", "\r\n", "\n\n\n"] {
            let supplied = [LISTING, surplus.as_bytes()].concat();
            assert_eq!(departure(TRACE, &supplied), Some(4), "{surplus:?}");
        }
        assert_eq!(departure(b"", b"\n"), Some(1));
        assert_eq!(departure(b"", b" "), Some(1));
        assert_eq!(departure(b"\n", b"X         1    11\n"), Some(1));
    }

    #[test]
    fn a_missing_line_departs_at_its_number() {
        let [one, two, three] = lines(LISTING)[..] else {
            panic!("three lines")
        };
        assert_eq!(departure(TRACE, &[two, three].concat()), Some(1));
        assert_eq!(departure(TRACE, &[one, three].concat()), Some(2));
        assert_eq!(departure(TRACE, &[one, two].concat()), Some(3));
        assert_eq!(departure(TRACE, &[one, three, two].concat()), Some(2));
        assert_eq!(departure(TRACE, &[one, one, two, three].concat()), Some(2));
        assert_eq!(departure(TRACE, &[one, two, two, three].concat()), Some(3));
    }

    #[test]
    fn a_last_line_of_the_trace_without_byte_10_requires_a_line() {
        assert_eq!(departure(b"R", b"X         1    11\n"), None);
        assert_eq!(departure(b"R", b""), Some(1));
        assert_eq!(departure(b"\nA     1", b"X         2    11"), Some(1));
    }

    #[test]
    fn a_trace_may_be_its_own_listing() {
        let own = b"X         1    11\nX         2    11\nX         3    11\n";
        assert_eq!(departure(own, own), None);
        assert_eq!(departure(own, &own[..36]), Some(3));
        assert_eq!(departure(&own[..36], own), Some(3));
    }

    #[test]
    fn a_text_without_bytes_has_no_lines() {
        assert!(lines(b"").is_empty());
        assert_eq!(lines(b"\n"), [b"\n"]);
        assert_eq!(lines(b"one"), [b"one"]);
        assert_eq!(lines(b"\n\na\nb"), [&b"\n"[..], b"\n", b"a\n", b"b"]);
    }

    #[test]
    fn answers() {
        assert_eq!(answer(None), "passes");
        assert_eq!(answer(Some(1)), "departs at line 1");
        assert_eq!(answer(Some(12_345_678_901)), "departs at line 12345678901");
    }
}
