//! Inputs of the check program, each under a name that says what it shows: the document's example, each refusal, each cut under each rule
//! that has it, and what an open journal prints.

use crate::file::format::{encode_slot, Slot};
use crate::pieces::{self, body_1, changed, check_input, front, journal, kind_1, kind_5, numbered, record, record_header};
use crate::pieces::{with_header, with_slot_field, words, ANYWHERE, SALVAGE, START, TAIL};

const DURABLE: u64 = START as u64;

/// The body limit of most inputs.
const LIMIT: u64 = 100;

const RULES: [(&str, u8); 3] = [("tail", TAIL), ("anywhere", ANYWHERE), ("salvage", SALVAGE)];

/// Names and inputs, one behind the other.
struct List(Vec<(String, Vec<u8>)>);

impl List {
    fn add(&mut self, name: &str, input: Vec<u8>) {
        self.0.push((name.to_string(), input));
    }

    /// A journal under Tail of one record.
    fn tail(&mut self, name: &str, journal: &[u8]) {
        self.add(name, check_input(TAIL, 1, LIMIT, journal));
    }

    /// Records under a rule, of one record where it is Tail, B at 12,288.
    fn records(&mut self, name: &str, rule: u8, records: &[&[u8]]) {
        self.add(name, check_input(rule, 1, LIMIT, &journal(DURABLE, records)));
    }
}

fn refused_fronts(list: &mut List) {
    let whole = front(DURABLE);
    list.add("example", check_input(ANYWHERE, 0, LIMIT, &with_header(&whole, 24, &words(&[7, 9]))));
    list.tail("refused_1_no_journal", &[]);
    list.tail("refused_1_length_43", &whole[..43]);
    list.tail("refused_2_header_checksum", &changed(&whole, 40, 1));
    list.tail("refused_3_magic", &with_header(&whole, 0, b"i"));
    list.tail("refused_4_version_3", &with_header(&whole, 8, &[3]));
    list.tail("refused_5_nanoseconds", &with_header(&whole, 20, &1_000_000_000u32.to_le_bytes()));
    list.tail("refused_6_seconds", &with_header(&whole, 12, &words(&[1 << 63])));
    list.tail("refused_7_length_44", &whole[..44]);
    list.tail("refused_7_length_12287", &whole[..START - 1]);
    list.tail("refused_8_no_sound_slot", &changed(&changed(&whole, 4096, 1), 8192, 1));
    list.tail("refused_9_slots_differ", &with_slot_field(&with_slot_field(&whole, 0, 0, 2), 0, 1, 8));
}

fn refused_records(list: &mut List) {
    let (good, wrong) = (kind_1(7), changed(&kind_1(8), 26, 1));
    let below = |past: u64, records: &[&[u8]]| journal(DURABLE + past, records);
    list.tail("refused_10_ends_before_durable_end", &below(28, &[&good]));
    list.tail("refused_10_few_bytes_below_durable_end", &below(28, &[&good, &good[..11]]));
    list.tail("refused_10_complement_below_durable_end", &below(28, &[&good, &[1; 12]]));
    list.tail("refused_10_torn_record_below_durable_end", &below(28, &[&good, &good[..26]]));
    list.tail("refused_10_checksum_below_durable_end", &below(28, &[&good, &wrong]));
    list.records("refused_11_complement_outside_window", TAIL, &[&good, &[1; 113]]);
    list.add("refused_11_complement_two_records_225", check_input(TAIL, 2, LIMIT, &journal(DURABLE, &[&[1; 225]])));
    list.add("refused_11_complement_not_all_zeros", check_input(TAIL, 0, LIMIT, &journal(DURABLE, &[&[0; 40], &[1]])));
    list.records("refused_12_checksum_a_record_follows", TAIL, &[&good, &wrong, &good]);
    for (name, rule) in &RULES[..2] {
        list.records(&format!("refused_13_length_0_{name}"), *rule, &[&good, &record_header(0, 0)]);
        list.records(&format!("refused_13_length_above_limit_{name}"), *rule, &[&good, &record_header(101, 0)]);
        list.records(&format!("refused_14_unknown_kind_{name}"), *rule, &[&good, &record(&[2; 11])]);
        list.records(&format!("refused_14_space_in_code_{name}"), *rule, &[&record(&body_1(1, b" ", b""))]);
    }
    list.tail("refused_13_length_0_below_durable_end", &below(28, &[&good, &record_header(0, 0)]));
    list.tail("refused_15_generation_in_slot", &with_slot_field(&front(DURABLE), 1, 0, u64::MAX));
    list.records("refused_15_generation_in_record", SALVAGE, &[&kind_5(7, u64::MAX, 9)]);
}

fn refused_inputs(list: &mut List) {
    let whole = front(DURABLE);
    for (name, rule) in RULES {
        list.add(&format!("refused_17_limit_{name}"), check_input(rule, 1, 67_108_899, &whole));
        let input = check_input(rule, 1, LIMIT, &[]);
        list.add(&format!("refused_28_{name}_alone"), input[..1].to_vec());
        list.add(&format!("refused_28_{name}_short_by_one"), input[..input.len() - 1].to_vec());
    }
    list.add("refused_28_no_input", Vec::new());
    list.add("refused_28_kind_0", check_input(0, 0, LIMIT, &whole));
    list.add("refused_28_kind_4", check_input(4, 0, LIMIT, &whole));
    list.add("refused_28_kind_255", check_input(255, 0, LIMIT, &whole));
    list.add("refused_28_kind_digit_1", [&b"1"[..], &words(&[1, LIMIT]), &whole].concat());
    list.add("refused_29_length_65537", check_input(ANYWHERE, 0, LIMIT, &filled(65_537)));
    // The longest front: one byte less is all that the program has to read.
    list.add("refused_29_length_65537_tail", check_input(TAIL, 1, LIMIT, &filled(65_537)));
}

fn cuts(list: &mut List) {
    let (good, wrong) = (kind_1(7), changed(&kind_1(8), 26, 1));
    for (name, rule) in RULES {
        list.records(&format!("cut_incomplete_11_bytes_{name}"), rule, &[&good, &good[..11]]);
        list.records(&format!("cut_incomplete_torn_record_{name}"), rule, &[&good, &good[..26]]);
        list.records(&format!("cut_damaged_complement_{name}"), rule, &[&good, &[1; 112]]);
        list.records(&format!("cut_damaged_checksum_{name}"), rule, &[&good, &wrong]);
        list.records(&format!("cut_damaged_zeros_{name}"), rule, &[&good, &[0; 300]]);
    }
    list.add("cut_damaged_complement_two_records_224", check_input(TAIL, 2, LIMIT, &journal(DURABLE, &[&[1; 224]])));
    list.add("cut_damaged_window_above_a_number", check_input(TAIL, u64::MAX, LIMIT, &journal(DURABLE, &[&[1; 500]])));
    list.records("cut_damaged_checksum_zeros_follow_tail", TAIL, &[&good, &wrong, &[0; 200]]);
    list.add("cut_damaged_checksum_two_records", check_input(TAIL, 2, LIMIT, &journal(DURABLE, &[&wrong, &good])));
    list.records("cut_damaged_checksum_a_record_follows_anywhere", ANYWHERE, &[&good, &wrong, &good]);
    list.records("cut_damaged_length_0_salvage", SALVAGE, &[&good, &record_header(0, 0)]);
    list.records("cut_damaged_length_above_limit_salvage", SALVAGE, &[&good, &record_header(101, 0)]);
    list.records("cut_damaged_unknown_kind_salvage", SALVAGE, &[&good, &record(&[2; 11]), &good]);
    list.add("cut_below_durable_end_stale_anywhere", check_input(ANYWHERE, 0, LIMIT, &journal(DURABLE + 54, &[&good, &wrong])));
}

/// A journal of so many bytes, which one record fills.
fn filled(length: usize) -> Vec<u8> {
    journal(DURABLE, &[&record(&body_1(7, b"D", &vec![b'8'; length - START - 23]))])
}

fn opens(list: &mut List) {
    let again = [kind_5(5, 3, 50), kind_1(3), kind_5(9, 5, 60), kind_5(3, 5, 70), kind_1(5), kind_1(4)].concat();
    for (name, rule) in RULES {
        list.records(&format!("opens_no_record_{name}"), rule, &[]);
        list.records(&format!("opens_numbers_filed_again_{name}"), rule, &[&again]);
    }
    let high = [kind_1(u64::MAX), kind_1(1 << 63), kind_1((1 << 63) - 1), kind_5(u64::MAX, u64::MAX - 1, u64::MAX)].concat();
    list.records("opens_numbers_above_2_to_63", TAIL, &[&high]);
    list.add("opens_ends_before_durable_end_anywhere", check_input(ANYWHERE, 0, LIMIT, &front(DURABLE + 1)));
    let owed = Slot { reset_owed: true, app_watermark: u64::MAX, ..pieces::slot(7, 0) };
    let images = [encode_slot(&owed), encode_slot(&pieces::slot(6, u64::MAX))];
    list.tail("opens_slot_0_reset_owed_watermark", &pieces::prefix(&images));
    list.tail("opens_equal_slots", &with_slot_field(&front(DURABLE), 0, 0, 2));
    list.tail("opens_one_sound_slot", &changed(&front(DURABLE), 8192, 1));
    list.add("opens_limit_67108898", check_input(TAIL, 1, 67_108_898, &front(DURABLE)));
    list.add("opens_length_65536", check_input(ANYWHERE, 0, 60_000, &filled(65_536)));
    list.add("opens_length_65536_tail", check_input(TAIL, 1, 60_000, &filled(65_536)));
    list.tail("opens_1024_entries", &numbered((1..=1024).chain([1024, 1])));
    list.tail("refused_16_1025_entries", &numbered(1..=1025));
    list.add("refused_16_1025_entries_salvage", check_input(SALVAGE, 0, LIMIT, &numbered((0..1025).rev())));
}

/// All names and inputs.
pub fn samples() -> Vec<(String, Vec<u8>)> {
    let mut list = List(Vec::new());
    refused_fronts(&mut list);
    refused_records(&mut list);
    refused_inputs(&mut list);
    cuts(&mut list);
    opens(&mut list);
    list.0
}

#[cfg(test)]
mod tests {
    use super::samples;
    use crate::check;
    use std::collections::BTreeSet;

    fn text(input: &[u8]) -> String {
        check::text(input).expect("the input has a text").text
    }

    #[test]
    fn each_does_what_its_name_says() {
        for (name, input) in samples() {
            let (text, words) = (text(&input), name.split('_').collect::<Vec<_>>());
            let said = match words[0] {
                "refused" => text.starts_with(&format!("refused {} at ", words[1])),
                "cut" if words[1] == "below" => text.contains(" stale=1 ") && text.contains(" cut=damaged:"),
                "cut" => text.starts_with("open ") && text.contains(&format!(" cut={}:", words[1])),
                _ => text.starts_with("open ") && text.contains(" cut=none\n"),
            };
            assert!(said, "{name}: {text}");
        }
    }

    #[test]
    fn each_refusal_of_the_program_is_there() {
        let all = samples();
        let numbers: BTreeSet<u8> = all.iter().filter_map(|(_, input)| text(input).split(' ').nth(1)?.parse().ok()).collect();
        assert_eq!(numbers, (1..=17).chain([28, 29]).collect());
        let names: BTreeSet<&String> = all.iter().map(|(name, _)| name).collect();
        assert_eq!(names.len(), all.len());
        let bytes: usize = all.iter().map(|(_, input)| input.len() + text(input).len()).sum();
        assert!(bytes < 1_500_000, "{bytes}");
    }
}
