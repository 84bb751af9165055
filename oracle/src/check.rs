//! The operation `check`: the text that the journal check program prints for an input, with the numbers of the original's scan.

use crate::entries::Entry;
use crate::file::format::{DamageRule, Scan, TruncationCause};
use crate::frames::{Answer, Fields, NOT_ASKED};
use crate::scan::{self, Outcome};

/// How many entries the program's index has.
pub(crate) const ROOM: usize = 1024;

/// The longest journal that the program reads, in bytes.
pub(crate) const LONGEST_JOURNAL: usize = 65_536;

/// What the program prints, and whether the original has no say in it.
pub struct Text {
    pub text: String,
    pub restated: bool,
}

/// A number from the front of the input.
fn number(input: &mut &[u8]) -> Option<u64> {
    let (bytes, rest) = input.split_first_chunk()?;
    *input = rest;
    Some(u64::from_le_bytes(*bytes))
}

/// The rule, the body limit and the journal of an input; none where its kind isn't known or it is shorter than its kind asks.
fn parts(input: &[u8]) -> Option<(DamageRule, u64, &[u8])> {
    let (kind, mut rest) = input.split_first()?;
    let rule = match kind {
        1 => DamageRule::Tail { records: number(&mut rest)? },
        2 => DamageRule::Anywhere,
        3 => DamageRule::Salvage,
        _ => return None,
    };
    Some((rule, number(&mut rest)?, rest))
}

fn refused(number: u8, place: u64) -> String {
    format!("refused {number} at {place}\n")
}

fn cut(scan: &Scan) -> String {
    match scan.truncation.map(|cut| (cut.cause(), cut.dropped_bytes())) {
        None => "none".to_string(),
        Some((TruncationCause::Incomplete, dropped)) => format!("incomplete:{dropped}"),
        Some((TruncationCause::Damaged, dropped)) => format!("damaged:{dropped}"),
    }
}

fn opened(scan: &Scan, entries: &[Entry]) -> String {
    let Scan { end, dead_bytes, next_sender, next_target, next_generation, active, app_watermark, boundary, .. } = scan;
    let (records, cut) = (entries.len(), cut(scan));
    let (stale, reset) = (u8::from(scan.slots_stale), u8::from(scan.reset_owed));
    let mut text = format!(
        "open end={end} records={records} dead={dead_bytes} sender={next_sender} target={next_target} generation={next_generation} \
         active={active} stale={stale} reset={reset} watermark={app_watermark} boundary={boundary} cut={cut}\n"
    );
    for [number, offset, body] in entries {
        text += &format!("entry seq={number} offset={offset} body={body}\n");
    }
    text
}

/// The text for an input.
pub fn text(input: &[u8]) -> Result<Text, String> {
    let added = |number, place| Text { text: refused(number, place), restated: true };
    let Some((rule, limit, journal)) = parts(input) else {
        return Ok(added(28, 0));
    };
    if journal.len() > LONGEST_JOURNAL {
        return Ok(added(29, 0));
    }
    let asked = scan::Request { rule, limit, lent: vec![[0; 3]; ROOM], journal };
    Ok(match scan::outcome(asked)? {
        (Outcome::Opened(scan), index) => {
            let entries = index.get(..scan.index.entries().len()).ok_or("the original has more entries than the index")?;
            Text { text: opened(&scan, entries), restated: false }
        }
        (Outcome::Refused(number, place), _) => Text { text: refused(number, place), restated: false },
        (Outcome::Added(number, place), _) => added(number, place),
    })
}

fn asked(mut fields: Fields) -> Result<Text, String> {
    let input = fields.run()?;
    fields.end()?;
    text(input)
}

fn printed(text: &str) -> Vec<u8> {
    Answer::new(0, 0).run(text.as_bytes()).done()
}

/// What the check program prints. The original can't be asked for an input that isn't one, for a journal that is too long, or for what it
/// can't be asked as a scan.
pub(crate) fn answer(fields: Fields) -> Result<Vec<u8>, String> {
    let Text { text, restated } = asked(fields)?;
    Ok(if restated { Answer::new(NOT_ASKED, 0).done() } else { printed(&text) })
}

/// What the port must answer where the original can't be asked.
pub(crate) fn restated(fields: Fields) -> Result<Vec<u8>, String> {
    match asked(fields)? {
        Text { text, restated: true } => Ok(printed(&text)),
        _ => Err("the original can be asked this check".to_string()),
    }
}

/// The first word of the text, and the refusal's number or the kind of cut.
pub(crate) fn found(answer: &[u8]) -> String {
    let text = String::from_utf8_lossy(answer.get(13..).unwrap_or_default());
    let line = text.lines().next().unwrap_or_default();
    let mut words = line.split(' ');
    let first = words.next().unwrap_or_default();
    match line.split_once("cut=") {
        Some((_, cut)) => format!(" {first} cut {}", cut.split(':').next().unwrap_or_default()),
        None => format!(" {first} {}", words.next().unwrap_or_default()),
    }
}

#[cfg(test)]
mod tests {
    use super::{found, printed, text};
    use crate::file::format::{encode_prefix, fresh_slots, Header};
    use std::time::UNIX_EPOCH;

    /// A prefix with sender 7, target 9, generations 1 and 2, durable end 12,288, watermark 0 and flags 0.
    fn prefix() -> Vec<u8> {
        let header = Header { creation_time: UNIX_EPOCH, next_sender: 7, next_target: 9 };
        encode_prefix(&header, &fresh_slots(1, 7, 9, 12_288, 0, false).expect("generation 1 stands").0)
    }

    fn printed_for(input: &[u8]) -> (String, bool) {
        let text = text(input).expect("the input has a text");
        (text.text, text.restated)
    }

    #[test]
    fn the_example_of_the_document() {
        let line = "open end=12288 records=0 dead=0 sender=7 target=9 generation=3 active=1 stale=0 reset=0 watermark=0 \
                    boundary=12288 cut=none\n";
        let input = [&b"\x02\x64\0\0\0\0\0\0\0"[..], &prefix()].concat();
        assert_eq!(printed_for(&input), (line.to_string(), false));
        assert_eq!(found(&printed(line)), " open cut none");
    }

    #[test]
    fn inputs_that_are_short_or_unknown() {
        for input in [&b""[..], b"\0", b"\x01", b"\x02", b"\x04", b"1", b"\xFF", b"2\x64\0\0\0\0\0\0\0", b"\x03\x64\0\0\0\0\0\0"] {
            assert_eq!(printed_for(input), ("refused 28 at 0\n".to_string(), true));
        }
        assert_eq!(printed_for(&[1; 16]), ("refused 28 at 0\n".to_string(), true));
        let no_journal = [b"\x01", &[0; 16][..]].concat();
        assert_eq!(printed_for(&no_journal), ("refused 1 at 0\n".to_string(), false));
        assert_eq!(found(&printed("refused 28 at 0\n")), " refused 28");
    }

    #[test]
    fn journals_of_the_greatest_length() {
        let mut input = [&b"\x02\x64\0\0\0\0\0\0\0"[..], &prefix()].concat();
        input.resize(9 + 65_536, 0);
        let (opened, restated) = printed_for(&input);
        assert!(opened.ends_with("cut=damaged:53248\n") && !restated, "{opened}");
        input.push(0);
        assert_eq!(printed_for(&input), ("refused 29 at 0\n".to_string(), true));
        // Before the limit that is out of domain, which a journal of this length would be refused with.
        input[4] = 4;
        assert_eq!(printed_for(&input).0, "refused 29 at 0\n");
        input.pop();
        assert_eq!(printed_for(&input), ("refused 17 at 0\n".to_string(), true));
    }
}
