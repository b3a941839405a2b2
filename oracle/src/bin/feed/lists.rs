//! Token lists for the feeder: every short one, random ones, and lists at the limits.

use oracle::batch::Case;
use oracle::feeding;
use oracle::feeding::right_length;
use oracle::feeding::room;
use oracle::generate;
use oracle::generate::Style;
use oracle::numbers::ERROR_WORDS;
use oracle::prng::Prng;
use oracle::records;
use oracle::tomlish;
use oracle::walk::ENTRIES;
use oracle::Entry;

use crate::Feed;
use crate::NOTED;

/// How the random lists are made, in turn, and their greatest length.
const STYLES: [(Style, usize); 16] = [
    (Style::Random, 6),
    (Style::Damaged, 30),
    (Style::Random, 12),
    (Style::Damaged, 12),
    (Style::Random, 30),
    (Style::Damaged, 30),
    (Style::Malformed, 9),
    (Style::Damaged, 60),
    (Style::Random, 8),
    (Style::Damaged, 20),
    (Style::Random, 12),
    (Style::Valid, 30),
    (Style::Random, 30),
    (Style::Damaged, 30),
    (Style::Random, 20),
    (Style::Random, 180),
];
/// Of one random list in so many it is asked whether it fits, too. It is odd, so that all styles come.
const FITS_EACH: u64 = 9;
/// The highest place.
const TOP: u32 = records::MAX_PLACE as u32;
/// Base, kind and length of lone tokens that end there or above.
const HIGH: [(u32, u16, u32); 6] = [
    (0, 15, TOP),
    (0, 15, TOP + 1),
    (TOP, 16, 0),
    (TOP + 1, 16, 0),
    (TOP - 2, 15, 2),
    (TOP - 2, 15, 3),
];

/// Every list of up to so many tokens, the short ones first, at each entry: once with
/// words to spare, and once with too little or exact room.
pub fn all(feed: &mut Feed, longest: u32) -> Result<(), String> {
    for length in 0..=longest {
        let lists = 16u64.pow(length);
        for list in 0..lists {
            let bytes = records::from_pairs(&feeding::short_list(length, list));
            for (_, entry) in ENTRIES {
                let case = Case::at(entry, 5 * (list % 2) as u32, bytes.clone());
                feed.put_in_rooms(case, |events, errors| {
                    feeding::ample_and_another(list / 2, events, errors)
                })?;
            }
            if (list + 1) % NOTED == 0 {
                feed.note(&format!(
                    "lists of {length} tokens, {} of {lists}",
                    list + 1
                ));
            }
        }
        feed.note(&format!("every list of {length} tokens"));
    }
    Ok(())
}

/// Of every list of up to so many tokens, whether it fits: with room for as many events
/// as it has records, and at times for fewer.
pub fn all_fits(feed: &mut Feed, longest: u32) -> Result<(), String> {
    for length in 0..=longest {
        for list in 0..16u64.pow(length) {
            let bytes = records::from_pairs(&feeding::short_list(length, list));
            let case = Case::at(Entry::Document, 3 * (list % 2) as u32, bytes);
            feed.put_fits(case, |records| {
                [room((list / 2 % 16) as usize, 4 * records, 3)]
            })?;
        }
        feed.note(&format!(
            "whether it fits, of every list of {length} tokens"
        ));
    }
    Ok(())
}

/// Random lists of all styles in turn, each at all four entries, then lists at the limits.
pub fn random(feed: &mut Feed, count: u64, seed: u64) -> Result<(), String> {
    let mut prng = Prng::new(seed);
    for turn in 0..count {
        let (style, most) = STYLES[(turn % 16) as usize];
        let Case {
            base, mut bytes, ..
        } = generate::make(&mut prng, style, None, most).case;
        if bytes.len() > 140 * 6 && prng.one_in(2) {
            // a run of openings stands behind a key and `=`, where a value entry has no value
            bytes.drain(..12);
        }
        if turn % FITS_EACH == 0 {
            let case = Case::at(Entry::Document, base, bytes.clone());
            feed.put_fits(case, |records| [room(prng.below(4), 4 * records, 3)])?;
        }
        put_at_all(feed, base, bytes, &mut prng)?;
        if (turn + 1) % NOTED == 0 {
            feed.note(&format!("random lists, {} of {count}", turn + 1));
        }
    }
    feed.note("random lists");
    at_the_limits(feed, &mut prng)
}

/// The most records, one more, and ends at the highest place and above.
fn at_the_limits(feed: &mut Feed, prng: &mut Prng) -> Result<(), String> {
    let most = records::MAX_RECORDS;
    for records in [most - 1, most, most + 1] {
        let kinds = (0..records).map(|_| 1 + prng.below(16) as u16);
        let pairs: Vec<(u16, u32)> = kinds.map(|kind| (kind, right_length(kind, 2))).collect();
        let mixed = records::from_pairs(&pairs);
        let valid = tomlish::valid(prng, Entry::Document, most);
        for bytes in [mixed, vec![1; 6 * records], records::from_pairs(&valid)] {
            put_at_all(feed, 0, bytes, prng)?;
        }
    }
    for (base, kind, length) in HIGH {
        put_at_all(feed, base, records::from_pairs(&[(kind, length)]), prng)?;
        put_at_all(feed, base, Vec::new(), prng)?;
    }
    feed.note("lists at the limits");
    Ok(())
}

/// The list at all four entries, with room drawn by what it needs there.
fn put_at_all(feed: &mut Feed, base: u32, bytes: Vec<u8>, prng: &mut Prng) -> Result<(), String> {
    for (_, entry) in ENTRIES {
        let mut drawn = |needed: usize, size: usize| match prng.below(16) {
            9 => prng.below(needed + 1),
            which => room(which, needed, 1 + prng.below(3 * size)),
        };
        feed.put_in_rooms(Case::at(entry, base, bytes.clone()), |events, errors| {
            [(drawn(events, 4), drawn(errors, ERROR_WORDS))]
        })?;
    }
    Ok(())
}
