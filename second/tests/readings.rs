//! Each reading of documents 01 and 02 that a session can show, as a session. The names are those of the
//! readings' rows; rows that only a caller of the library can show are tested beside the code.

use second::frame::answer_line;
use second::pack::Pack;
use second::session::new_pack;

const OUTPUT: u8 = 1;
const DOUBLE: u8 = 2;
const SEQUENCE: u8 = 4;
const CHECK: u8 = 8;

const READ: u8 = 0;
const WRITE: u8 = 1;
const MARK: u8 = 2;

const GOOD: u8 = 0;
const REDUNDANCY: u8 = 1;
const INCOMPLETE: u8 = 2;
const FILE_MARK: u8 = 3;
const END_OF_MEDIUM: u8 = 4;

const TOO_LARGE: u64 = 1 << 36;

/// The digits of what was found in a block: two sums of four bytes and two numbers of two.
const FOUND_DIGITS: usize = 24;

struct Session {
    pack: Pack,
}

impl Session {
    fn new() -> Session {
        Session { pack: new_pack() }
    }

    /// A session after a fresh start with all units.
    fn fresh(buffers: u8, width: u16) -> Session {
        let mut session = Session::new();
        session.gives(&fresh(buffers, width), "00");
        session
    }

    /// The frame gets the answer; blanks in the answer are for reading only, and two points stand for any
    /// twelve bytes that tell what was found.
    fn gives(&mut self, frame: &str, answer: &str) {
        let given = answer_line(&mut self.pack, frame.as_bytes());
        let mut given = String::from_utf8_lossy(&given).into_owned();
        let answer = answer.replace(' ', "");
        if let Some(place) = answer.find("..").filter(|&place| given.len() >= place + FOUND_DIGITS) {
            given.replace_range(place..place + FOUND_DIGITS, "..");
        }
        assert_eq!(given, answer, "{}", &frame[..frame.len().min(60)]);
    }

    /// The frame gets the answer, and nothing is changed.
    fn refuses(&mut self, frame: &str, answer: &str) {
        let before = self.pack.clone();
        self.gives(frame, answer);
        assert!(self.pack == before, "changed by {}", &frame[..frame.len().min(60)]);
    }

    /// Reads a block of file 0, which is on channel 0, unit 0, with the given check error.
    fn reads(&mut self, words: &[u64], error: u8) {
        self.gives(&ask(0, READ, 0), "00 00");
        self.gives(&report(0, 0, GOOD, words), &format!("00 01 {error:02X} .. FF"));
    }
}

fn words(words: &[u64]) -> String {
    words.iter().map(|word| format!("{word:010X}")).collect()
}

fn fresh(buffers: u8, width: u16) -> String {
    format!("00{buffers:02X}{width:04X}{}", "03FF".repeat(5))
}

fn open(file: u8, channel: u8, unit: u8, flags: u8, block_size: u16, record_length: u16) -> String {
    format!("01{file:02X}{channel:02X}{unit:02X}{flags:02X}{block_size:04X}{record_length:04X}")
}

fn close(file: u8) -> String {
    format!("02{file:02X}")
}

fn ask(file: u8, operation: u8, priority: u8) -> String {
    format!("03{file:02X}{operation:02X}{priority:02X}")
}

fn report(channel: u8, unit: u8, outcome: u8, block: &[u64]) -> String {
    format!("04{channel:02X}{unit:02X}{outcome:02X}{}", words(block))
}

fn get(file: u8) -> String {
    format!("05{file:02X}")
}

fn put(file: u8, record: &[u64]) -> String {
    format!("06{file:02X}{}", words(record))
}

fn seal(file: u8) -> String {
    format!("07{file:02X}")
}

fn skip(file: u8) -> String {
    format!("08{file:02X}")
}

const FREEZE: &str = "09";
const THAW: &str = "0A";

/// A session with an input file of that number on channel 0 for each of the units, number = unit.
fn inputs(units: &[u8]) -> Session {
    let mut session = Session::fresh(32, 4);
    for &unit in units {
        session.gives(&open(unit, 0, unit, 0, 2, 1), "00");
    }
    session
}

/// A session with output file 0 on channel 0, unit 0.
fn output(flags: u8, block_size: u16, record_length: u16) -> Session {
    let mut session = Session::fresh(4, 8);
    session.gives(&open(0, 0, 0, OUTPUT + flags, block_size, record_length), "00");
    session
}

/// A session with input file 0 on channel 0, unit 0.
fn input(flags: u8, block_size: u16, record_length: u16) -> Session {
    let mut session = Session::fresh(4, 8);
    session.gives(&open(0, 0, 0, flags, block_size, record_length), "00");
    session
}

#[test]
fn a1_an_argument_out_of_range_always_wins() {
    let mut session = Session::fresh(4, 8);
    session.refuses(&report(5, 0, GOOD, &[1; 1_024]), "01");
    session.refuses(&get(16), "01");
    session.refuses(&report(0, 10, GOOD, &[]), "01");
    session.refuses(&ask(3, 3, 0), "01");
    session.refuses(&put(16, &[TOO_LARGE]), "01");
    session.refuses(&open(16, 0, 0, 0, 0, 0), "01");
}

#[test]
fn a2_a_given_word_is_judged_by_itself() {
    let mut session = input(0, 2, 1);
    session.refuses(&put(3, &[TOO_LARGE]), "02");
    session.refuses(&put(0, &[TOO_LARGE]), "02");
    session.refuses(&report(0, 0, GOOD, &[TOO_LARGE]), "02");
    session.gives(&ask(0, READ, 0), "00 00");
    session.refuses(&report(0, 0, GOOD, &[1, 2, TOO_LARGE]), "02");
    let mut session = output(0, 2, 1);
    session.refuses(&put(0, &[1, TOO_LARGE]), "02");
    session.gives(&put(0, &[1]), "00");
    session.gives(&put(0, &[1]), "00");
    session.refuses(&put(0, &[TOO_LARGE]), "02");
    session.refuses(&put(0, &[(1 << 40) - 1]), "02");
}

#[test]
fn a3_words_with_another_outcome_need_no_operation() {
    let mut session = input(0, 2, 1);
    session.refuses(&report(0, 0, FILE_MARK, &[5]), "01");
    session.refuses(&report(0, 0, END_OF_MEDIUM, &[TOO_LARGE]), "01");
    session.refuses(&report(0, 0, GOOD, &[5]), "0B");
    session.refuses(&report(0, 0, GOOD, &[TOO_LARGE]), "02");
}

#[test]
fn a4_words_to_a_write_or_mark_are_1() {
    let mut session = output(0, 2, 2);
    session.gives(&ask(0, MARK, 0), "00 00");
    session.refuses(&report(0, 0, GOOD, &[5]), "01");
    session.gives(&report(0, 0, GOOD, &[]), "00 01 00 FF");
    session.gives(&put(0, &[5, 6]), "00");
    session.gives(&ask(0, WRITE, 0), "00 00");
    session.refuses(&report(0, 0, GOOD, &[5]), "01");
    session.refuses(&report(0, 0, GOOD, &[TOO_LARGE]), "01");
    session.refuses(&report(0, 0, FILE_MARK, &[5]), "01");
    session.refuses(&report(0, 0, FILE_MARK, &[]), "0C");
    let mut session = input(0, 2, 1);
    session.gives(&ask(0, READ, 0), "00 00");
    session.refuses(&report(0, 0, END_OF_MEDIUM, &[5]), "01");
    session.refuses(&report(0, 0, END_OF_MEDIUM, &[]), "0C");
}

#[test]
fn a5_a_good_read_without_words_is_13() {
    let mut session = input(0, 2, 1);
    session.gives(&ask(0, READ, 0), "00 00");
    session.refuses(&report(0, 0, GOOD, &[]), "0D");
}

#[test]
fn a6_a_block_that_is_too_long_is_13() {
    let mut session = input(SEQUENCE, 2, 1);
    session.gives(&ask(0, READ, 0), "00 00");
    for length in [1, 4, 9, 1_024] {
        session.refuses(&report(0, 0, GOOD, &vec![7; length]), "0D");
    }
    session.refuses(&report(0, 0, GOOD, &[7; 1_025]), "01");
    session.gives(&report(0, 0, GOOD, &[7, 7, 1]), "00 01 00 .. FF");
}

#[test]
fn a7_on_an_idle_channel_the_size_is_not_judged() {
    let mut session = input(0, 2, 1);
    for length in [0, 1, 2, 3, 1_024] {
        session.refuses(&report(0, 0, GOOD, &vec![7; length]), "0B");
    }
}

#[test]
fn a8_too_large_wins_over_11_and_13() {
    let mut session = input(0, 2, 1);
    session.refuses(&report(0, 0, GOOD, &[1, 2, 3, TOO_LARGE]), "02");
    session.gives(&ask(0, READ, 0), "00 00");
    session.refuses(&report(0, 0, GOOD, &[1, 2, 3, TOO_LARGE]), "02");
}

#[test]
fn a9_sizes_of_open_are_13_whatever_they_are() {
    let mut session = Session::fresh(4, 8);
    for (flags, block_size, record_length) in [
        (0, 0, 0),
        (0, 2, 0),
        (0, 2, 3),
        (0, 9, 1),
        (0, 1_025, 1),
        (0, 65_535, 65_535),
        (SEQUENCE, 8, 1),
        (CHECK, 8, 8),
    ] {
        session.refuses(&open(0, 0, 0, flags, block_size, record_length), "0D");
    }
    session.gives(&open(0, 0, 0, SEQUENCE + CHECK, 7, 7), "00");
    session.gives(&open(1, 0, 1, 0, 8, 8), "00");
}

#[test]
fn a10_flags_above_15_are_1() {
    let mut session = Session::fresh(4, 8);
    for flags in [16, 32, 64, 128, 255] {
        session.refuses(&open(0, 0, 0, flags, 2, 1), "01");
    }
}

#[test]
fn a11_mask_bits_10_to_15_are_1() {
    let mut session = Session::fresh(4, 8);
    for bit in 10..16 {
        session.refuses(&format!("00010001{:04X}0000000000000000", 1 << bit), "01");
        session.refuses(&format!("000100010000000000000000{:04X}", 1 << bit), "01");
    }
}

#[test]
fn a12_the_program_lends_4096_words() {
    let mut session = Session::new();
    session.gives(&fresh(32, 128), "00");
    session.gives(&fresh(4, 1_024), "00");
    for (buffers, width) in [(32, 129), (5, 1_024), (0, 8), (33, 8), (4, 0), (1, 1_025), (255, 65_535)] {
        session.refuses(&fresh(buffers, width), "01");
    }
}

#[test]
fn a13_numbers_above_their_lists_are_1() {
    let mut session = input(0, 2, 1);
    session.refuses(&ask(0, READ, 2), "01");
    session.refuses(&ask(0, 3, 0), "01");
    session.gives(&ask(0, READ, 1), "00 00");
    session.refuses(&report(0, 0, 5, &[]), "01");
    session.refuses(&report(0, 0, 255, &[]), "01");
    for kind in 0x0D..=0xFF {
        session.refuses(&format!("{kind:02X}"), "01");
    }
}

#[test]
fn a14_8_wins_over_9_10_15_and_6_wins_over_8() {
    let mut session = input(0, 2, 1);
    session.gives(&ask(0, READ, 0), "00 00");
    session.refuses(&ask(0, READ, 0), "08");
    session.refuses(&ask(0, WRITE, 0), "06");
    session.refuses(&ask(0, MARK, 0), "06");
    let mut session = output(0, 2, 2);
    session.gives(&put(0, &[1, 2]), "00");
    session.gives(&ask(0, WRITE, 0), "00 00");
    session.refuses(&ask(0, MARK, 0), "08");
    session.refuses(&ask(0, READ, 0), "06");
}

#[test]
fn a15_only_the_files_own_buffers_stop_its_close() {
    let mut session = output(0, 2, 1);
    session.gives(&open(1, 0, 1, OUTPUT, 2, 1), "00");
    session.gives(&put(0, &[1]), "00");
    session.refuses(&close(0), "0F");
    session.gives(&ask(1, MARK, 0), "00 01");
    session.gives(&report(0, 1, GOOD, &[]), "00 01 00 FF");
    session.gives(&close(1), "00");
    session.gives(&seal(0), "00");
    session.refuses(&close(0), "0F");
    session.refuses(&ask(0, MARK, 0), "0F");
    session.gives(&ask(0, WRITE, 0), "00 00");
    session.refuses(&close(0), "08");
}

#[test]
fn a17_no_room_wins_over_the_wrong_count() {
    let mut session = output(0, 2, 2);
    session.refuses(&put(0, &[1]), "0D");
    session.gives(&put(0, &[1, 2]), "00");
    session.refuses(&put(0, &[1]), "09");
    session.refuses(&put(0, &[]), "09");
}

#[test]
fn a18_a_report_of_an_undeclared_unit_is_11() {
    let mut session = Session::new();
    session.refuses(&report(0, 0, GOOD, &[]), "0B");
    session.gives("0001000400010000000000000000", "00");
    session.refuses(&report(0, 9, REDUNDANCY, &[]), "0B");
    session.refuses(&report(4, 0, END_OF_MEDIUM, &[]), "0B");
}

#[test]
fn a19_open_gives_the_lowest_of_3_4_7_13() {
    let mut session = Session::new();
    session.gives("0001000400030000000000000000", "00");
    session.gives(&open(0, 0, 0, 0, 2, 1), "00");
    session.refuses(&open(0, 0, 2, 0, 0, 0), "03");
    session.refuses(&open(0, 0, 1, 0, 0, 0), "04");
    session.refuses(&open(1, 0, 0, 0, 0, 0), "04");
    session.refuses(&open(1, 0, 1, 0, 0, 0), "07");
    session.gives(&close(0), "00");
    session.refuses(&open(1, 0, 1, DOUBLE, 0, 0), "07");
    session.refuses(&open(1, 0, 1, 0, 0, 0), "0D");
}

#[test]
fn a27_a_refused_call_changes_nothing() {
    let mut session = input(SEQUENCE, 2, 1);
    session.gives(&ask(0, READ, 0), "00 00");
    for _ in 0..3 {
        session.gives(&report(0, 0, REDUNDANCY, &[]), "00 00 00 00");
    }
    session.refuses(&report(0, 0, GOOD, &[1]), "0D");
    session.refuses(&report(0, 0, GOOD, &[1, TOO_LARGE]), "02");
    session.gives(FREEZE, "00");
    session.refuses(&fresh(0, 8), "01");
    session.gives(&report(0, 0, GOOD, &[9, 1]), "00 02 00 .. FF");
    session.gives(&skip(0), "00");
    session.gives(&ask(0, READ, 0), "00 FF");
}

#[test]
fn b1_malformed_lines_are_1() {
    let mut session = input(0, 1, 1);
    let lines = [
        "",
        "0",
        "050",
        "0a",
        "05 00",
        "0500\r",
        "0500\0",
        "\t",
        "0D",
        "0500FF",
        "05",
        "0600FF",
        "04000000FFFFFFFF",
    ];
    for line in lines {
        session.refuses(line, "01");
    }
    session.refuses(&format!("0600{}", words(&[1; 1_025])), "01");
}

#[test]
fn b2_put_and_report_without_words_are_well_formed() {
    let mut session = output(0, 2, 2);
    session.refuses("0600", "0D");
    session.refuses("0601", "05");
    session.refuses("04000000", "0B");
    session.gives(&put(0, &[1, 2]), "00");
    session.refuses("0600", "09");
}

#[test]
fn b5_masks_are_highest_first_and_channel_0_first() {
    let mut session = Session::new();
    session.gives("0004000402000001000000000000", "00");
    session.refuses(&open(0, 0, 0, 0, 2, 1), "03");
    session.gives(&open(0, 0, 9, 0, 2, 1), "00");
    session.refuses(&open(1, 1, 9, 0, 2, 1), "03");
    session.gives(&open(1, 1, 0, 0, 2, 1), "00");
    session.refuses(&open(2, 4, 0, 0, 2, 1), "03");
}

#[test]
fn b6_digits_of_answers_are_upper_case() {
    let mut session = input(0, 1, 1);
    session.refuses(&report(0, 0, GOOD, &[]), "0B");
    session.reads(&[0xABCDEF], 0);
    session.gives(&get(0), "00 00 0000ABCDEF");
}

#[test]
fn b7_ask_names_the_working_unit() {
    let mut session = inputs(&[0, 1]);
    session.gives(&ask(1, READ, 0), "00 01");
    session.gives(&ask(0, READ, 1), "00 01");
    let mut session = inputs(&[0]);
    session.gives(FREEZE, "00");
    session.gives(&ask(0, READ, 0), "00 FF");
}

#[test]
fn b8_report_names_the_check_error_and_the_unit_after_the_next_start() {
    let mut session = inputs(&[1]);
    session.gives(&open(0, 0, 0, SEQUENCE, 2, 1), "00");
    session.gives(&ask(0, READ, 0), "00 00");
    session.gives(&ask(1, READ, 0), "00 00");
    session.gives(&report(0, 0, GOOD, &[5, 2]), "00 01 01 .. 01");
    session.gives(&report(0, 1, REDUNDANCY, &[]), "00 00 00 01");
    session.gives(FREEZE, "00");
    session.gives(&report(0, 1, GOOD, &[5]), "00 01 00 .. FF");
}

#[test]
fn b9_only_a_write_that_ends_01_or_04_shows_words() {
    let mut session = output(SEQUENCE, 2, 2);
    for outcome in [GOOD, END_OF_MEDIUM] {
        session.gives(&ask(0, MARK, 0), "00 00");
        let result = outcome.max(1);
        session.gives(&report(0, 0, outcome, &[]), &format!("00 {result:02X} 00 FF"));
    }
    session.gives(&put(0, &[5, 6]), "00");
    session.gives(&ask(0, WRITE, 0), "00 00");
    session.gives(&report(0, 0, REDUNDANCY, &[]), "00 00 00 00");
    session.gives(&report(0, 0, INCOMPLETE, &[]), "00 06 00 FF");
    session.gives(&ask(0, WRITE, 0), "00 00");
    session.gives(&report(0, 0, END_OF_MEDIUM, &[]), &format!("00 04 00 FF {}", words(&[5, 6, 1])));
}

#[test]
fn b10_a_report_that_does_not_answer_the_request_gives_00() {
    let mut session = inputs(&[0, 1]);
    session.gives(&ask(1, READ, 0), "00 01");
    session.gives(&report(0, 1, REDUNDANCY, &[]), "00 00 00 01");
    session.gives(&ask(0, READ, 1), "00 01");
    session.gives(&report(0, 1, REDUNDANCY, &[]), "00 00 00 00");
    session.gives(FREEZE, "00");
    session.gives(&report(0, 0, INCOMPLETE, &[]), "00 00 00 FF");
}

#[test]
fn b11_words_where_no_read_works_are_not_malformed() {
    let mut session = input(0, 1, 1);
    session.refuses(&report(0, 0, GOOD, &[5]), "0B");
    session.refuses(&report(0, 9, GOOD, &[5]), "0B");
}

#[test]
fn b12_before_the_first_fresh_start() {
    let mut session = Session::new();
    session.gives(FREEZE, "00");
    session.gives(THAW, "00");
    session.refuses(&open(0, 0, 0, 0, 1, 1), "03");
    session.refuses(&report(0, 0, GOOD, &[]), "0B");
    for frame in [close(0), ask(0, READ, 0), get(0), put(0, &[]), seal(0), skip(0)] {
        session.refuses(&frame, "05");
    }
    session.gives(FREEZE, "00");
    session.gives(&fresh(4, 8), "00");
    session.gives(&open(0, 0, 0, 0, 1, 1), "00");
    session.gives(&ask(0, READ, 0), "00 00");
}

#[test]
fn c1_a_last_record_that_ends_the_block_leaves_no_leftover() {
    let mut session = input(0, 5, 2);
    session.reads(&[1, 2, 3, 4], 0);
    session.gives(&get(0), &format!("00 00 {}", words(&[1, 2])));
    session.gives(&get(0), &format!("00 00 {}", words(&[3, 4])));
    session.gives(&get(0), "00 01");
    session.reads(&[1, 2, 3], 0);
    session.gives(&get(0), &format!("00 00 {}", words(&[1, 2])));
    session.gives(&get(0), &format!("00 04 {}", words(&[3])));
    session.gives(&get(0), "00 01");
}

#[test]
fn c2_a_used_up_block_stays_full_until_the_next_get_or_skip() {
    let mut session = input(0, 2, 2);
    session.reads(&[1, 2], 0);
    session.gives(&get(0), &format!("00 00 {}", words(&[1, 2])));
    session.refuses(&ask(0, READ, 0), "09");
    session.gives(&get(0), "00 01");
    session.reads(&[3, 4], 0);
    session.gives(&get(0), &format!("00 00 {}", words(&[3, 4])));
    session.gives(&skip(0), "00");
    session.refuses(&skip(0), "09");
    session.gives(&ask(0, READ, 0), "00 00");
}

#[test]
fn c3_a_check_error_is_told_once_by_the_first_get() {
    let mut session = input(DOUBLE + SEQUENCE + CHECK, 3, 2);
    session.reads(&[5, 7], 3);
    session.reads(&[1, 2, 786_432 + 2], 0);
    session.gives(&get(0), "00 03 03 ..");
    session.gives(&get(0), &format!("00 04 {}", words(&[5])));
    session.gives(&get(0), &format!("00 00 {}", words(&[1, 2])));
    session.reads(&[1, 2, 786_432 + 9], 1);
    session.gives(&get(0), "00 03 01 ..");
    session.gives(&get(0), &format!("00 00 {}", words(&[1, 2])));
    session.reads(&[1, 3, 786_432 + 4], 2);
    session.gives(&get(0), "00 03 02 ..");
    session.gives(&get(0), &format!("00 00 {}", words(&[1, 3])));
}

#[test]
fn c4_skip_and_close_drop_an_error_that_was_not_told() {
    let mut session = input(SEQUENCE, 3, 1);
    session.reads(&[5, 7], 1);
    session.gives(&skip(0), "00");
    session.gives(&get(0), "00 01");
    session.reads(&[6, 2], 0);
    session.gives(&get(0), &format!("00 00 {}", words(&[6])));
    session.gives(&skip(0), "00");
    session.reads(&[5, 7], 1);
    session.gives(&close(0), "00");
    session.gives(&open(0, 0, 0, SEQUENCE, 3, 1), "00");
    session.gives(&get(0), "00 01");
}

#[test]
fn c5_skip_drops_the_used_up_block_first() {
    let mut session = input(DOUBLE, 2, 1);
    session.reads(&[1], 0);
    session.reads(&[2], 0);
    session.gives(&get(0), &format!("00 00 {}", words(&[1])));
    session.gives(&skip(0), "00");
    session.gives(&get(0), &format!("00 00 {}", words(&[2])));
}

#[test]
fn c6_full_blocks_come_before_the_end_and_the_end_comes_again() {
    let mut session = input(DOUBLE, 2, 1);
    session.reads(&[1, 2], 0);
    session.gives(&ask(0, READ, 0), "00 00");
    session.gives(&report(0, 0, FILE_MARK, &[]), "00 03 00 FF");
    session.refuses(&ask(0, READ, 0), "0A");
    session.gives(&get(0), &format!("00 00 {}", words(&[1])));
    session.gives(&get(0), &format!("00 00 {}", words(&[2])));
    session.gives(&get(0), "00 02");
    session.gives(&get(0), "00 02");
    session.refuses(&skip(0), "09");
    session.gives(&close(0), "00");
    session.gives(&open(0, 0, 0, 0, 2, 1), "00");
    session.gives(&get(0), "00 01");
}

#[test]
fn c7_buffers_are_used_while_the_unit_has_a_request() {
    let mut session = input(DOUBLE, 2, 1);
    session.reads(&[1], 0);
    session.gives(&ask(0, READ, 0), "00 00");
    session.gives(&get(0), &format!("00 00 {}", words(&[1])));
    session.gives(&skip(0), "00");
    let mut session = output(DOUBLE, 2, 1);
    session.gives(&ask(0, MARK, 0), "00 00");
    session.gives(&put(0, &[1]), "00");
    session.gives(&seal(0), "00");
    session.gives(&report(0, 0, GOOD, &[]), "00 01 00 FF");
    session.gives(&ask(0, WRITE, 0), "00 00");
    session.gives(&put(0, &[2]), "00");
    session.gives(&report(0, 0, GOOD, &[]), &format!("00 01 00 FF {}", words(&[1])));
}

#[test]
fn c8_oldest_is_by_time_and_not_by_buffer_number() {
    let mut session = input(DOUBLE, 1, 1);
    session.reads(&[1], 0);
    session.reads(&[2], 0);
    session.gives(&skip(0), "00");
    session.reads(&[3], 0);
    session.gives(&get(0), &format!("00 00 {}", words(&[2])));
    session.gives(&get(0), &format!("00 00 {}", words(&[3])));
    let mut session = output(DOUBLE, 1, 1);
    session.gives(&put(0, &[1]), "00");
    session.gives(&put(0, &[2]), "00");
    session.gives(&ask(0, WRITE, 0), "00 00");
    session.gives(&report(0, 0, GOOD, &[]), &format!("00 01 00 FF {}", words(&[1])));
    session.gives(&put(0, &[3]), "00");
    session.gives(&ask(0, WRITE, 0), "00 00");
    session.gives(&report(0, 0, GOOD, &[]), &format!("00 01 00 FF {}", words(&[2])));
}

#[test]
fn c9_a_block_in_error_is_kept_and_its_error_number_reported() {
    for (check_word, error) in [((6 << 18) + 1, 2), ((5 << 18) + 9, 1), ((6 << 18) + 9, 3)] {
        let mut session = input(SEQUENCE + CHECK, 1, 1);
        session.reads(&[5, check_word], error);
        session.gives(&get(0), &format!("00 03 {error:02X} .."));
        session.gives(&get(0), &format!("00 00 {}", words(&[5])));
    }
}

#[test]
fn c10_block_numbers_go_up_after_an_error_and_a_block_keeps_its_number() {
    let mut session = input(SEQUENCE, 1, 1);
    session.reads(&[5, 9], 1);
    session.gives(&skip(0), "00");
    session.reads(&[5, 2], 0);
    session.gives(&skip(0), "00");
    session.gives(&ask(0, READ, 0), "00 00");
    session.gives(&report(0, 0, FILE_MARK, &[]), "00 03 00 FF");
    session.gives(&close(0), "00");
    session.gives(&open(0, 0, 0, SEQUENCE, 1, 1), "00");
    session.reads(&[5, 1], 0);

    let mut session = output(DOUBLE + SEQUENCE, 1, 1);
    session.gives(&put(0, &[5]), "00");
    session.gives(&put(0, &[6]), "00");
    session.gives(&ask(0, WRITE, 0), "00 00");
    session.gives(&report(0, 0, INCOMPLETE, &[]), "00 06 00 FF");
    for (record, number) in [(5, 1), (6, 2)] {
        session.gives(&ask(0, WRITE, 0), "00 00");
        session.gives(&report(0, 0, GOOD, &[]), &format!("00 01 00 FF {}", words(&[record, number])));
    }
    session.gives(&put(0, &[7]), "00");
    session.gives(&ask(0, WRITE, 0), "00 00");
    session.gives(&report(0, 0, GOOD, &[]), &format!("00 01 00 FF {}", words(&[7, 3])));
}

#[test]
fn c11_only_chosen_fields_are_compared() {
    let mut session = input(SEQUENCE, 1, 1);
    session.reads(&[5, (1 << 36) - 32_768 + 1], 0);
    let mut session = input(CHECK, 1, 1);
    session.reads(&[5, (5 << 18) + (1 << 18) - 1], 0);
    let mut session = input(SEQUENCE + CHECK, 1, 1);
    session.reads(&[5, (5 << 18) + (7 << 15) + 1], 0);
}

#[test]
fn c12_the_check_word_is_no_data_word() {
    let mut session = input(SEQUENCE + CHECK, 3, 1);
    session.reads(&[1, 2, 786_433], 0);
    session.gives(&get(0), &format!("00 00 {}", words(&[1])));
    session.gives(&get(0), &format!("00 00 {}", words(&[2])));
    session.gives(&get(0), "00 01");
}

#[test]
fn c13_input_blocks_are_dropped_and_output_blocks_are_not() {
    let mut session = input(DOUBLE, 1, 1);
    session.reads(&[1], 0);
    session.reads(&[2], 0);
    session.gives(&close(0), "00");
    let mut session = output(0, 1, 1);
    session.gives(&put(0, &[1]), "00");
    session.refuses(&close(0), "0F");
    session.gives(&fresh(4, 8), "00");
    session.gives(&open(0, 0, 0, 0, 1, 1), "00");
}

#[test]
fn c14_a_block_is_sealed_as_soon_as_no_record_fits() {
    let mut session = output(DOUBLE, 5, 2);
    session.gives(&put(0, &[1, 2]), "00");
    session.refuses(&ask(0, WRITE, 0), "09");
    session.gives(&put(0, &[3, 4]), "00");
    session.refuses(&seal(0), "09");
    session.gives(&ask(0, WRITE, 0), "00 00");
    session.gives(&report(0, 0, GOOD, &[]), &format!("00 01 00 FF {}", words(&[1, 2, 3, 4])));
    let mut session = output(0, 2, 2);
    session.gives(&put(0, &[1, 2]), "00");
    session.gives(&ask(0, WRITE, 0), "00 00");
}

#[test]
fn c15_end_of_medium_leaves_no_trace() {
    let mut session = output(0, 1, 1);
    for record in [1, 2] {
        session.gives(&put(0, &[record]), "00");
        session.gives(&ask(0, WRITE, 0), "00 00");
        session.gives(&report(0, 0, END_OF_MEDIUM, &[]), &format!("00 04 00 FF {}", words(&[record])));
    }
}

#[test]
fn c16_the_block_that_is_sent_stays_the_oldest() {
    let mut session = output(DOUBLE, 1, 1);
    session.gives(&put(0, &[1]), "00");
    session.gives(&ask(0, WRITE, 0), "00 00");
    session.gives(&put(0, &[2]), "00");
    session.gives(&report(0, 0, REDUNDANCY, &[]), "00 00 00 00");
    session.gives(&report(0, 0, GOOD, &[]), &format!("00 01 00 FF {}", words(&[1])));
}

#[test]
fn d1_the_scan_begins_above_the_last_ordinary_end() {
    let mut session = inputs(&[2, 5, 7]);
    session.gives(&ask(5, READ, 0), "00 05");
    session.gives(&ask(2, READ, 0), "00 05");
    session.gives(&ask(7, READ, 0), "00 05");
    session.gives(&report(0, 5, FILE_MARK, &[]), "00 03 00 07");
    session.gives(&report(0, 7, GOOD, &[1]), "00 01 00 .. 02");
    session.gives(&report(0, 2, GOOD, &[1]), "00 01 00 .. FF");
    // The end of unit 7 in a freeze, the end of a priority operation, a close and an open.
    session.gives(&skip(7), "00");
    session.gives(&ask(7, READ, 0), "00 07");
    session.gives(FREEZE, "00");
    session.gives(&report(0, 7, GOOD, &[1]), "00 01 00 .. FF");
    session.gives(&open(9, 0, 9, 0, 2, 1), "00");
    session.gives(&close(5), "00");
    session.gives(&skip(2), "00");
    session.gives(&ask(2, READ, 0), "00 FF");
    session.gives(&ask(9, READ, 0), "00 FF");
    session.gives(&open(0, 0, 0, 0, 2, 1), "00");
    session.gives(&ask(0, READ, 1), "00 FF");
    session.gives(THAW, "00");
    session.gives(&report(0, 0, GOOD, &[1]), "00 01 00 .. 09");
    // A fresh start resets the scan.
    session.gives(&fresh(4, 4), "00");
    session.gives(FREEZE, "00");
    for unit in [9, 2] {
        session.gives(&open(unit, 0, unit, 0, 2, 1), "00");
        session.gives(&ask(unit, READ, 0), "00 FF");
    }
    session.gives(THAW, "00");
    session.gives(&report(0, 2, FILE_MARK, &[]), "00 03 00 09");
}

#[test]
fn d2_on_an_idle_channel_an_ask_starts_at_once() {
    let mut session = inputs(&[0, 1, 2]);
    session.gives(&ask(2, READ, 0), "00 02");
    session.gives(&ask(0, READ, 0), "00 02");
    session.gives(&ask(1, READ, 0), "00 02");
    session.gives(&report(0, 2, GOOD, &[1]), "00 01 00 .. 00");
    session.gives(&report(0, 0, GOOD, &[1]), "00 01 00 .. 01");
    session.gives(&report(0, 1, GOOD, &[1]), "00 01 00 .. FF");
}

#[test]
fn d3_a_running_priority_operation_is_not_displaced() {
    let mut session = inputs(&[1, 6]);
    session.gives(&ask(6, READ, 1), "00 06");
    session.gives(&ask(1, READ, 1), "00 06");
    session.gives(&report(0, 6, REDUNDANCY, &[]), "00 00 00 06");
    session.gives(&report(0, 6, GOOD, &[1]), "00 01 00 .. 01");
}

#[test]
fn d4_after_a_freeze_the_lowest_priority_unit_goes_first() {
    let mut session = inputs(&[1, 3, 6]);
    session.gives(&ask(6, READ, 1), "00 06");
    session.gives(FREEZE, "00");
    session.gives(&report(0, 6, REDUNDANCY, &[]), "00 00 00 FF");
    session.gives(&ask(3, READ, 1), "00 FF");
    session.gives(&ask(1, READ, 0), "00 FF");
    session.gives(THAW, "00");
    session.gives(&report(0, 3, GOOD, &[1]), "00 01 00 .. 06");
    session.gives(&report(0, 6, GOOD, &[1]), "00 01 00 .. 01");

    let mut session = inputs(&[1, 6]);
    session.gives(&ask(6, READ, 0), "00 06");
    session.gives(FREEZE, "00");
    session.gives(&report(0, 6, REDUNDANCY, &[]), "00 00 00 FF");
    session.gives(&ask(1, READ, 0), "00 FF");
    session.gives(THAW, "00");
    session.gives(&report(0, 1, GOOD, &[1]), "00 01 00 .. 06");
}

/// A good end of a priority read on channel 0, which is skipped, and the unit that works then.
fn ends(session: &mut Session, unit: u8, next: &str) {
    session.gives(&report(0, unit, GOOD, &[1]), &format!("00 01 00 .. {next}"));
    session.gives(&skip(unit), "00");
}

/// Document 02, M-112: "Lowest unit first lets one busy key shut out another."
#[test]
fn k1_priority_requests_are_scanned_from_above_the_last_priority_end() {
    let mut session = inputs(&[0, 3, 9]);
    session.gives(&ask(0, READ, 1), "00 00");
    session.gives(&ask(9, READ, 1), "00 00");
    session.gives(&ask(3, READ, 1), "00 00");
    ends(&mut session, 0, "03");
    session.gives(&ask(0, READ, 1), "00 03");
    ends(&mut session, 3, "09");
    session.gives(&ask(3, READ, 1), "00 09");
    ends(&mut session, 9, "00");
    session.gives(&ask(9, READ, 1), "00 00");
    ends(&mut session, 0, "03");
    ends(&mut session, 3, "09");
    // The scan comes to the unit of the last end last, and a fresh start resets it.
    ends(&mut session, 9, "FF");
    session.gives(&ask(3, READ, 1), "00 03");
    ends(&mut session, 3, "FF");
    session.gives(FREEZE, "00");
    session.gives(&ask(3, READ, 1), "00 FF");
    session.gives(&ask(0, READ, 1), "00 FF");
    session.gives(THAW, "00");
    ends(&mut session, 0, "03");
    session.gives(&fresh(4, 4), "00");
    session.gives(FREEZE, "00");
    for unit in [3, 0] {
        session.gives(&open(unit, 0, unit, 0, 2, 1), "00");
        session.gives(&ask(unit, READ, 1), "00 FF");
    }
    session.gives(THAW, "00");
    session.gives(&report(0, 0, FILE_MARK, &[]), "00 03 00 03");
}

#[test]
fn k2_each_kind_has_its_own_mark() {
    let mut session = inputs(&[1, 2, 5, 8]);
    session.gives(&ask(5, READ, 1), "00 05");
    ends(&mut session, 5, "FF");
    session.gives(&ask(1, READ, 0), "00 01");
    ends(&mut session, 1, "FF");
    // The marks are 2 and 6.
    session.gives(&ask(8, READ, 0), "00 08");
    session.gives(&ask(1, READ, 0), "00 08");
    session.gives(&ask(5, READ, 1), "00 08");
    session.gives(&ask(2, READ, 1), "00 08");
    ends(&mut session, 8, "02");
    ends(&mut session, 2, "05");
    ends(&mut session, 5, "01");
    session.gives(&ask(5, READ, 0), "00 01");
    ends(&mut session, 1, "05");
    ends(&mut session, 5, "FF");
}

#[test]
fn k3_the_scan_finds_the_request_that_displaces() {
    let mut session = inputs(&[1, 4, 6, 7]);
    session.gives(&ask(4, READ, 1), "00 04");
    ends(&mut session, 4, "FF");
    session.gives(&ask(6, READ, 0), "00 06");
    session.gives(&ask(1, READ, 1), "00 06");
    session.gives(&ask(7, READ, 1), "00 06");
    session.gives(&report(0, 6, REDUNDANCY, &[]), "00 00 00 07");
    // A priority operation that works is not displaced.
    session.gives(&report(0, 7, REDUNDANCY, &[]), "00 00 00 07");
    ends(&mut session, 7, "01");
    ends(&mut session, 1, "06");
}

#[test]
fn k4_a_priority_operation_that_a_freeze_stopped_waits_for_the_scan() {
    let mut session = inputs(&[2, 4, 6, 9]);
    session.gives(&ask(2, READ, 1), "00 02");
    ends(&mut session, 2, "FF");
    for unit in [6, 9, 4] {
        session.gives(&ask(unit, READ, 1), "00 06");
    }
    session.gives(FREEZE, "00");
    session.gives(&report(0, 6, INCOMPLETE, &[]), "00 00 00 FF");
    session.gives(THAW, "00");
    session.refuses(&report(0, 6, INCOMPLETE, &[]), "0B");
    ends(&mut session, 4, "06");
    session.gives(&report(0, 6, INCOMPLETE, &[]), "00 06 00 09");
    ends(&mut session, 9, "FF");
    // An end in a freeze moves the mark.
    session.gives(&ask(4, READ, 1), "00 04");
    session.gives(FREEZE, "00");
    ends(&mut session, 4, "FF");
    for unit in [2, 4, 6] {
        session.gives(&ask(unit, READ, 1), "00 FF");
    }
    session.gives(THAW, "00");
    ends(&mut session, 6, "02");
    ends(&mut session, 2, "04");
}

#[test]
fn d5_freeze_and_thaw_between_two_reports_have_no_effect() {
    let mut session = inputs(&[0, 1]);
    session.gives(&ask(1, READ, 0), "00 01");
    session.gives(&ask(0, READ, 0), "00 01");
    for frame in [FREEZE, FREEZE, THAW, THAW] {
        session.gives(frame, "00");
    }
    session.gives(&report(0, 1, REDUNDANCY, &[]), "00 00 00 01");
}

#[test]
fn d7_a_displaced_operation_keeps_its_counts() {
    let mut session = inputs(&[0, 1]);
    session.gives(&ask(1, READ, 0), "00 01");
    session.gives(&report(0, 1, INCOMPLETE, &[]), "00 00 00 01");
    session.gives(&ask(0, READ, 1), "00 01");
    session.gives(&report(0, 1, REDUNDANCY, &[]), "00 00 00 00");
    session.gives(&report(0, 0, GOOD, &[1]), "00 01 00 .. 01");
    session.gives(FREEZE, "00");
    session.gives(&report(0, 1, REDUNDANCY, &[]), "00 00 00 FF");
    session.gives(THAW, "00");
    session.gives(&report(0, 1, GOOD, &[1]), "00 02 00 .. FF");

    let mut session = inputs(&[1]);
    session.gives(&ask(1, READ, 0), "00 01");
    session.gives(FREEZE, "00");
    session.gives(&report(0, 1, INCOMPLETE, &[]), "00 00 00 FF");
    session.gives(THAW, "00");
    session.gives(&report(0, 1, INCOMPLETE, &[]), "00 06 00 FF");
}

#[test]
fn d8_asks_in_a_freeze_wait() {
    let mut session = inputs(&[0, 1]);
    session.gives(&ask(1, READ, 0), "00 01");
    session.gives(FREEZE, "00");
    session.gives(&ask(0, READ, 1), "00 01");
    session.gives(&report(0, 1, GOOD, &[1]), "00 01 00 .. FF");
    session.gives(THAW, "00");
    session.gives(&report(0, 0, GOOD, &[1]), "00 01 00 .. FF");
}

#[test]
fn e1_failures_of_a_read() {
    let mut session = inputs(&[0]);
    for (last, result) in [(REDUNDANCY, "05"), (INCOMPLETE, "06")] {
        session.gives(&ask(0, READ, 0), "00 00");
        for _ in 0..100 {
            session.gives(&report(0, 0, REDUNDANCY, &[]), "00 00 00 00");
        }
        session.gives(&report(0, 0, last, &[]), &format!("00 {result} 00 FF"));
        session.refuses(&report(0, 0, last, &[]), "0B");
    }
    session.gives(&ask(0, READ, 0), "00 00");
    for outcome in [INCOMPLETE, REDUNDANCY, REDUNDANCY, REDUNDANCY] {
        session.gives(&report(0, 0, outcome, &[]), "00 00 00 00");
    }
    session.gives(&report(0, 0, INCOMPLETE, &[]), "00 06 00 FF");
}

#[test]
fn e2_attempt_4_of_a_read_is_in_the_opposite_mode() {
    let mut session = input(SEQUENCE, 1, 1);
    session.gives(&ask(0, READ, 0), "00 00");
    for outcome in [REDUNDANCY, INCOMPLETE, REDUNDANCY] {
        session.gives(&report(0, 0, outcome, &[]), "00 00 00 00");
    }
    session.gives(&report(0, 0, GOOD, &[7, 3]), "00 02 01 .. FF");
    session.gives(&get(0), "00 03 01 ..");
    session.gives(&get(0), &format!("00 00 {}", words(&[7])));
    session.gives(&skip(0), "00");
    session.gives(&ask(0, READ, 0), "00 00");
    for _ in 0..3 {
        session.gives(&report(0, 0, REDUNDANCY, &[]), "00 00 00 00");
    }
    session.gives(&report(0, 0, FILE_MARK, &[]), "00 03 00 FF");

    let mut session = output(0, 1, 1);
    session.gives(&put(0, &[7]), "00");
    for (operation, answer) in [(WRITE, "00 01 00 FF 0000000007"), (MARK, "00 01 00 FF")] {
        session.gives(&ask(0, operation, 0), "00 00");
        for _ in 0..3 {
            session.gives(&report(0, 0, REDUNDANCY, &[]), "00 00 00 00");
        }
        session.gives(&report(0, 0, GOOD, &[]), answer);
    }
}

/// Document 02, M-102. Readings H1 and H2: directly after the error, sum and number worked out, then those
/// read, and the working unit after them.
#[test]
fn h1_what_was_found_stands_behind_the_error() {
    let mut session = inputs(&[4]);
    session.gives(&open(0, 0, 0, SEQUENCE + CHECK, 3, 2), "00");
    session.gives(&ask(0, READ, 0), "00 00");
    session.gives(&ask(4, READ, 0), "00 00");
    let check_word = (0x2_1234 << 18) + 0x5678;
    session.gives(&report(0, 0, GOOD, &[1, 2, check_word]), "00 01 03 00000003 0001 00021234 5678 04");
    session.gives(&get(0), "00 03 03 00000003 0001 00021234 5678");
    session.gives(&get(0), &format!("00 00 {}", words(&[1, 2])));
}

/// Readings H3 and H5: without a check word the sum and the number are worked out, and nothing is read.
#[test]
fn h3_fields_not_chosen_are_worked_out() {
    let mut session = input(DOUBLE, 2, 1);
    session.gives(&ask(0, READ, 0), "00 00");
    session.gives(&report(0, 0, GOOD, &[5, (1 << 36) - 1]), "00 01 00 00000005 0001 00000000 0000 FF");
    session.gives(&ask(0, READ, 0), "00 00");
    session.gives(&report(0, 0, GOOD, &[0]), "00 01 00 00000000 0002 00000000 0000 FF");
    let mut session = input(SEQUENCE, 2, 1);
    session.gives(&ask(0, READ, 0), "00 00");
    session.gives(&report(0, 0, GOOD, &[1, 2, 1]), "00 01 00 00000003 0001 00000000 0001 FF");
    let mut session = input(CHECK, 2, 1);
    session.gives(&ask(0, READ, 0), "00 00");
    session.gives(&report(0, 0, GOOD, &[1, 2, 3 << 18]), "00 01 00 00000003 0001 00000003 0000 FF");
}

/// Readings H4 and H6: a field that is not chosen is read as it stands; the number is the one before it goes
/// up; the bits between the fields show nowhere.
#[test]
fn h4_a_field_not_chosen_is_read_as_it_stands() {
    let mut session = input(DOUBLE + SEQUENCE, 2, 1);
    session.gives(&ask(0, READ, 0), "00 00");
    let check_word = (0x3_FFFF << 18) + (7 << 15) + 1;
    session.gives(&report(0, 0, GOOD, &[1, 2, check_word]), "00 01 00 00000003 0001 0003FFFF 0001 FF");
    session.gives(&ask(0, READ, 0), "00 00");
    session.gives(&report(0, 0, GOOD, &[7, check_word]), "00 01 01 00000007 0002 0003FFFF 0001 FF");
    let mut session = input(CHECK, 2, 1);
    session.gives(&ask(0, READ, 0), "00 00");
    session.gives(&report(0, 0, GOOD, &[9, (9 << 18) + 0x7FFF]), "00 01 00 00000009 0001 00000009 7FFF FF");
}

/// Reading H7: reports that deliver nothing, and get's other answers, are as they were.
#[test]
fn h7_only_deliveries_and_errors_told_carry_it() {
    let mut session = input(SEQUENCE, 2, 2);
    session.gives(&ask(0, READ, 0), "00 00");
    for _ in 0..3 {
        session.gives(&report(0, 0, REDUNDANCY, &[]), "00 00 00 00");
    }
    session.gives(&get(0), "00 01");
    session.gives(&report(0, 0, GOOD, &[5, 9]), "00 02 01 00000005 0001 00000000 0009 FF");
    session.gives(&get(0), "00 03 01 00000005 0001 00000000 0009");
    session.gives(&get(0), &format!("00 04 {}", words(&[5])));
    session.gives(&skip(0), "00");
    session.gives(&ask(0, READ, 0), "00 00");
    session.gives(&report(0, 0, FILE_MARK, &[]), "00 03 00 FF");
    session.gives(&get(0), "00 02");
    let mut session = output(SEQUENCE + CHECK, 1, 1);
    session.gives(&put(0, &[5]), "00");
    session.gives(&ask(0, WRITE, 0), "00 00");
    session.gives(&report(0, 0, GOOD, &[]), &format!("00 01 00 FF {}", words(&[5, (5 << 18) + 1])));
}

/// Reading H9: get tells what was found at delivery, though two blocks came since.
#[test]
fn h9_get_tells_what_was_found_at_delivery() {
    let mut session = input(DOUBLE + SEQUENCE + CHECK, 2, 2);
    session.gives(&ask(0, READ, 0), "00 00");
    session.gives(&report(0, 0, GOOD, &[5, (5 << 18) + 2]), "00 01 01 00000005 0001 00000005 0002 FF");
    session.gives(&ask(0, READ, 0), "00 00");
    session.gives(&report(0, 0, GOOD, &[6, (7 << 18) + 2]), "00 01 02 00000006 0002 00000007 0002 FF");
    session.gives(&get(0), "00 03 01 00000005 0001 00000005 0002");
    session.gives(&skip(0), "00");
    session.gives(&ask(0, READ, 0), "00 00");
    session.gives(&report(0, 0, GOOD, &[8, (8 << 18) + 3]), "00 01 00 00000008 0003 00000008 0003 FF");
    session.gives(&get(0), "00 03 02 00000006 0002 00000007 0002");
    session.gives(&get(0), &format!("00 04 {}", words(&[6])));
    session.gives(&get(0), &format!("00 04 {}", words(&[8])));
}

/// Document 02, M-101. A session at work on a read of file 0 after so many failures of an outcome.
fn failing(flags: u8, failures: usize, outcome: u8) -> Session {
    let mut session = input(flags, 3, 2);
    fails(&mut session, failures, outcome);
    session
}

/// Asks a read of file 0 that fails so often.
fn fails(session: &mut Session, failures: usize, outcome: u8) {
    session.gives(&ask(0, READ, 0), "00 00");
    for _ in 0..failures {
        session.gives(&report(0, 0, outcome, &[]), "00 00 00 00");
    }
}

/// Reading G1: words with outcomes 1 and 2 are judged as those with outcome 0 are.
#[test]
fn g1_words_of_failed_reads_are_no_longer_1() {
    let mut session = input(0, 3, 2);
    for outcome in [REDUNDANCY, INCOMPLETE] {
        session.refuses(&report(0, 0, outcome, &[5]), "0B");
        session.refuses(&report(0, 9, outcome, &[5; 9]), "0B");
        session.refuses(&report(0, 0, outcome, &[TOO_LARGE]), "02");
        session.refuses(&report(5, 0, outcome, &[TOO_LARGE]), "01");
    }
    for outcome in [FILE_MARK, END_OF_MEDIUM, 5] {
        session.refuses(&report(0, 0, outcome, &[5]), "01");
        session.refuses(&report(0, 0, outcome, &[TOO_LARGE]), "01");
    }
    session.gives(&ask(0, READ, 0), "00 00");
    session.gives(&report(0, 0, REDUNDANCY, &[5]), "00 00 00 00");
    session.gives(&report(0, 0, INCOMPLETE, &[5]), "00 00 00 00");
    session.refuses(&report(0, 0, FILE_MARK, &[5]), "01");
    let mut session = output(0, 2, 2);
    session.gives(&ask(0, MARK, 0), "00 00");
    for outcome in [REDUNDANCY, INCOMPLETE] {
        session.refuses(&report(0, 0, outcome, &[5]), "01");
    }
    session.gives(&report(0, 0, GOOD, &[]), "00 01 00 FF");
    session.gives(&put(0, &[5, 6]), "00");
    session.gives(&ask(0, WRITE, 0), "00 00");
    for outcome in [REDUNDANCY, INCOMPLETE] {
        session.refuses(&report(0, 0, outcome, &[5, 6]), "01");
    }
}

/// Reading G2: 1 + e to B + e words, else 13, repeated or permanent; a word too large is 2; none is no fault.
#[test]
fn g2_words_of_failed_reads_are_sized_as_good_blocks() {
    for (flags, wrong) in [(0, [4, 5, 1_024]), (CHECK, [1, 5, 1_024])] {
        for (failures, outcome) in [(0, REDUNDANCY), (0, INCOMPLETE), (100, REDUNDANCY)] {
            let mut session = failing(flags, failures, REDUNDANCY);
            for length in wrong {
                session.refuses(&report(0, 0, outcome, &vec![7; length]), "0D");
            }
            session.refuses(&report(0, 0, outcome, &[7, TOO_LARGE]), "02");
            session.refuses(&report(0, 0, outcome, &[TOO_LARGE; 9]), "02");
        }
    }
    let mut session = failing(0, 1, INCOMPLETE);
    session.refuses(&report(0, 0, INCOMPLETE, &[7; 4]), "0D");
    session.gives(&report(0, 0, INCOMPLETE, &[]), "00 06 00 FF");
    let mut session = failing(SEQUENCE, 100, REDUNDANCY);
    session.gives(&report(0, 0, REDUNDANCY, &[]), "00 05 00 FF");
}

/// Reading G3: redundancy at attempt 101, an incomplete word there and the second incomplete word are
/// permanent; without words of their own the buffer is empty again and no number is used.
#[test]
fn g3_the_words_are_those_of_the_permanent_report_itself() {
    let mut session = failing(SEQUENCE, 99, REDUNDANCY);
    session.gives(&report(0, 0, REDUNDANCY, &[1, 2, 1]), "00 00 00 00");
    session.gives(&report(0, 0, REDUNDANCY, &[]), "00 05 00 FF");
    session.gives(&get(0), "00 01");
    session.gives(&ask(0, READ, 0), "00 00");
    session.gives(&report(0, 0, INCOMPLETE, &[1, 2, 1]), "00 00 00 00");
    session.gives(&report(0, 0, REDUNDANCY, &[3, 1]), "00 00 00 00");
    session.gives(&report(0, 0, INCOMPLETE, &[]), "00 06 00 FF");
    session.gives(&get(0), "00 01");
    session.reads(&[7, 1], 0);
    // The last of several blocks that came.
    let mut session = failing(0, 0, REDUNDANCY);
    session.gives(&report(0, 0, INCOMPLETE, &[1, 2, 3]), "00 00 00 00");
    session.gives(&report(0, 0, INCOMPLETE, &[9]), "00 06 00 00000009 0001 00000000 0000 FF");
    session.gives(&get(0), "00 03 0A 00000009 0001 00000000 0000");
    session.gives(&get(0), &format!("00 04 {}", words(&[9])));
}

/// Readings G4 and G5: 03 and 04 for a redundancy, 03 and 0A for an incomplete word, whatever came before.
#[test]
fn g4_get_names_the_outcome_that_was_permanent() {
    for (before, outcome, result, error) in
        [(100, REDUNDANCY, "05", "04"), (100, INCOMPLETE, "06", "0A"), (0, INCOMPLETE, "06", "0A")]
    {
        let mut session = failing(0, before, REDUNDANCY);
        if before == 0 {
            session.gives(&report(0, 0, INCOMPLETE, &[]), "00 00 00 00");
            session.gives(&report(0, 0, REDUNDANCY, &[]), "00 00 00 00");
        }
        session.gives(&report(0, 0, outcome, &[5, 6]), &format!("00 {result} 00 .. FF"));
        session.gives(&get(0), &format!("00 03 {error} .."));
        session.gives(&get(0), &format!("00 00 {}", words(&[5, 6])));
        session.gives(&get(0), "00 01");
    }
    // An incomplete word first and then a hundred redundancies.
    let mut session = failing(0, 1, INCOMPLETE);
    for _ in 0..99 {
        session.gives(&report(0, 0, REDUNDANCY, &[]), "00 00 00 00");
    }
    session.gives(&report(0, 0, REDUNDANCY, &[5]), "00 05 00 .. FF");
    session.gives(&get(0), "00 03 04 ..");
}

/// Readings G6, G7 and H8: the report has the check error and what was found; get tells the error of the read,
/// then the check error with the same bytes, then the records and the leftover.
#[test]
fn g6_the_error_of_the_read_comes_before_the_check_error() {
    let mut session = failing(SEQUENCE + CHECK, 100, REDUNDANCY);
    let found = "00000006 0001 00000007 0009";
    session.gives(&report(0, 0, REDUNDANCY, &[1, 2, 3, (7 << 18) + 9]), &format!("00 05 03 {found} FF"));
    session.gives(&get(0), &format!("00 03 04 {found}"));
    session.gives(&get(0), &format!("00 03 03 {found}"));
    session.gives(&get(0), &format!("00 00 {}", words(&[1, 2])));
    session.gives(&get(0), &format!("00 04 {}", words(&[3])));
    session.gives(&get(0), "00 01");
    // A kept block in which nothing is wrong has one error only.
    fails(&mut session, 1, INCOMPLETE);
    session.gives(&report(0, 0, INCOMPLETE, &[5, (5 << 18) + 2]), "00 06 00 00000005 0002 00000005 0002 FF");
    session.gives(&get(0), "00 03 0A 00000005 0002 00000005 0002");
    session.gives(&get(0), &format!("00 04 {}", words(&[5])));
}

/// Reading G8: a kept block has a number, and the next one the next.
#[test]
fn g8_a_kept_block_counts_as_delivered() {
    let mut session = failing(DOUBLE + SEQUENCE, 1, INCOMPLETE);
    session.gives(&report(0, 0, INCOMPLETE, &[5, 1]), "00 06 00 00000005 0001 00000000 0001 FF");
    session.reads(&[5, 2], 0);
    session.gives(&skip(0), "00");
    fails(&mut session, 1, INCOMPLETE);
    session.gives(&report(0, 0, INCOMPLETE, &[5, 2]), "00 06 01 00000005 0003 00000000 0002 FF");
    session.gives(&skip(0), "00");
    session.reads(&[5, 4], 0);
}

/// Reading G9: skip and close drop both errors; ask read finds no empty buffer; older blocks go first; a
/// used-up buffer waits for the next get.
#[test]
fn g9_a_kept_block_is_full_in_every_way() {
    let mut session = failing(SEQUENCE, 1, INCOMPLETE);
    session.gives(&report(0, 0, INCOMPLETE, &[5, 7]), "00 06 01 .. FF");
    session.refuses(&ask(0, READ, 0), "09");
    session.gives(&get(0), "00 03 0A ..");
    session.gives(&skip(0), "00");
    session.gives(&get(0), "00 01");
    session.reads(&[5, 2], 0);
    session.gives(&close(0), "00");
    session.gives(&open(0, 0, 0, DOUBLE + SEQUENCE, 3, 2), "00");
    session.reads(&[5, 1], 0);
    fails(&mut session, 100, REDUNDANCY);
    session.gives(&report(0, 0, REDUNDANCY, &[6, 7, 9]), "00 05 01 .. FF");
    session.gives(&get(0), &format!("00 04 {}", words(&[5])));
    session.refuses(&ask(0, READ, 0), "09");
    session.gives(&get(0), "00 03 04 ..");
    session.gives(&get(0), "00 03 01 ..");
    session.gives(&get(0), &format!("00 00 {}", words(&[6, 7])));
    session.gives(&ask(0, READ, 0), "00 00");
    session.gives(&report(0, 0, GOOD, &[8, 3]), "00 01 00 .. FF");
    session.refuses(&ask(0, READ, 0), "09");
    session.gives(&get(0), &format!("00 04 {}", words(&[8])));
    session.gives(&ask(0, READ, 0), "00 00");
    session.gives(&report(0, 0, FILE_MARK, &[]), "00 03 00 FF");
    session.gives(&get(0), "00 02");
    session.gives(&close(0), "00");
}

/// Reading G10: the operation has ended and the scan's mark moves, with words as without.
#[test]
fn g10_the_turns_are_as_without_words() {
    for block in [&[][..], &[5]] {
        let mut session = inputs(&[2, 5, 7]);
        for unit in [5, 2, 7] {
            session.gives(&ask(unit, READ, 0), "00 05");
        }
        session.gives(&report(0, 5, INCOMPLETE, block), "00 00 00 05");
        let found = if block.is_empty() { "" } else { ".." };
        session.gives(&report(0, 5, INCOMPLETE, block), &format!("00 06 00 {found} 07"));
        session.refuses(&report(0, 5, INCOMPLETE, block), "0B");
        session.gives(&report(0, 7, GOOD, &[5]), "00 01 00 .. 02");
    }
}

/// Document 02, M-106. A report of a redundancy with a length.
fn measured(channel: u8, unit: u8, length: u16, block: &[u64]) -> String {
    format!("04{channel:02X}{unit:02X}01{length:04X}{}", words(block))
}

/// A session with input file 0 on unit 0 of channel 0 that has read so many records.
fn after_records(records: usize) -> Session {
    let mut session = input(0, 3, 3);
    reads_more(&mut session, records);
    session
}

fn reads_more(session: &mut Session, records: usize) {
    for _ in 0..records {
        session.reads(&[7, 8, 9], 0);
        session.gives(&skip(0), "00");
    }
}

/// A read of file 0 fails so often; `seven` says after which failures the result is 07.
fn fails_with(session: &mut Session, failures: usize, seven: impl Fn(usize) -> bool) {
    session.gives(&ask(0, READ, 0), "00 00");
    for failure in 1..=failures {
        let result = if seven(failure) { "07" } else { "00" };
        session.gives(&report(0, 0, REDUNDANCY, &[]), &format!("00 {result} 00 00"));
    }
}

/// The failures that make attempt 12, 22, .. 92 the next one.
fn listed(failure: usize) -> bool {
    [11, 21, 31, 41, 51, 61, 71, 81, 91].contains(&failure)
}

/// Readings I1 and I3: nine attempts, after either failure, if three records or more stand since the mark.
#[test]
fn i1_result_07_at_the_attempts_of_the_list() {
    for (records, seven) in [(2, false), (3, true), (5, true)] {
        let mut session = after_records(records);
        fails_with(&mut session, 100, |failure| seven && listed(failure));
        session.gives(&report(0, 0, REDUNDANCY, &[]), "00 05 00 FF");
        // 07 and a permanent error have not moved the position.
        fails_with(&mut session, 12, |failure| seven && listed(failure));
        session.gives(&report(0, 0, GOOD, &[1]), "00 01 00 .. FF");
    }
    let mut session = after_records(3);
    fails_with(&mut session, 10, |_| false);
    session.gives(&report(0, 0, INCOMPLETE, &[]), "00 07 00 00");
    session.gives(&report(0, 0, INCOMPLETE, &[]), "00 06 00 FF");
    // With words, which are dropped.
    fails_with(&mut session, 10, |_| false);
    session.gives(&report(0, 0, REDUNDANCY, &[1]), "00 07 00 00");
    session.gives(&get(0), "00 01");
}

/// Reading I1: writes and marks never give 07.
#[test]
fn i1_writes_and_marks_never_give_07() {
    let mut session = output(0, 1, 1);
    for _ in 0..4 {
        session.gives(&put(0, &[5]), "00");
        session.gives(&ask(0, WRITE, 0), "00 00");
        for _ in 0..26 {
            session.gives(&report(0, 0, REDUNDANCY, &[]), "00 00 00 00");
        }
        session.gives(&report(0, 0, GOOD, &[]), &format!("00 01 00 FF {}", words(&[5])));
    }
    session.gives(&ask(0, MARK, 0), "00 00");
    for _ in 0..26 {
        session.gives(&report(0, 0, REDUNDANCY, &[]), "00 00 00 00");
    }
}

/// Reading I2: 07 in place of 00, also where the operation is displaced or waits for the thaw.
#[test]
fn i2_result_07_of_one_that_does_not_go_on() {
    let mut session = after_records(3);
    session.gives(&open(4, 0, 4, 0, 2, 1), "00");
    fails_with(&mut session, 10, |_| false);
    session.gives(&ask(4, READ, 1), "00 00");
    session.gives(&report(0, 0, REDUNDANCY, &[]), "00 07 00 04");
    session.gives(&report(0, 4, FILE_MARK, &[]), "00 03 00 00");
    for _ in 0..9 {
        session.gives(&report(0, 0, REDUNDANCY, &[]), "00 00 00 00");
    }
    session.gives(FREEZE, "00");
    session.gives(&report(0, 0, REDUNDANCY, &[]), "00 07 00 FF");
    session.gives(THAW, "00");
    session.gives(&report(0, 0, REDUNDANCY, &[]), "00 00 00 00");
}

/// Readings I4 and I5: the position is the unit's; what was written counts, a mark puts the records to zero.
#[test]
fn i4_written_records_count_for_a_later_read() {
    for (written, marks_after, seven) in [(3, 0, true), (2, 0, false), (3, 1, false), (5, 3, false)] {
        let mut session = output(0, 1, 1);
        for _ in 0..written {
            session.gives(&put(0, &[5]), "00");
            session.gives(&ask(0, WRITE, 0), "00 00");
            session.gives(&report(0, 0, END_OF_MEDIUM, &[]), &format!("00 04 00 FF {}", words(&[5])));
        }
        for _ in 0..marks_after {
            session.gives(&ask(0, MARK, 0), "00 00");
            session.gives(&report(0, 0, GOOD, &[]), "00 01 00 FF");
        }
        session.gives(&close(0), "00");
        session.gives(&open(0, 0, 0, 0, 3, 3), "00");
        fails_with(&mut session, 11, |failure| seven && failure == 11);
    }
    // A mark read; then two records, then three.
    let mut session = after_records(9);
    session.gives(&ask(0, READ, 0), "00 00");
    session.gives(&report(0, 0, FILE_MARK, &[]), "00 03 00 FF");
    session.gives(&close(0), "00");
    session.gives(&open(0, 0, 0, 0, 3, 3), "00");
    reads_more(&mut session, 2);
    fails_with(&mut session, 11, |_| false);
    session.gives(&report(0, 0, GOOD, &[1]), "00 01 00 .. FF");
    session.gives(&skip(0), "00");
    fails_with(&mut session, 11, |failure| failure == 11);
    // The good end at attempt 4 is a record too; a fresh start puts everything to zero.
    let mut session = after_records(2);
    fails_with(&mut session, 3, |_| false);
    session.gives(&report(0, 0, GOOD, &[1]), "00 02 00 .. FF");
    session.gives(&skip(0), "00");
    fails_with(&mut session, 11, |failure| failure == 11);
    session.gives(&fresh(4, 8), "00");
    session.gives(&open(0, 0, 0, 0, 3, 3), "00");
    fails_with(&mut session, 11, |_| false);
}

/// Reading I6: a kept block does not move the position.
#[test]
fn i6_a_kept_block_is_no_record() {
    let mut session = after_records(2);
    session.gives(&ask(0, READ, 0), "00 00");
    session.gives(&report(0, 0, INCOMPLETE, &[]), "00 00 00 00");
    session.gives(&report(0, 0, INCOMPLETE, &[7]), "00 06 00 .. FF");
    session.gives(&skip(0), "00");
    fails_with(&mut session, 11, |_| false);
}

/// Readings I7 and I13: noise on the unit since the fresh start takes 07 away, by any file; other units' noise
/// does not.
#[test]
fn i7_noise_met_takes_07_away() {
    let mut session = after_records(3);
    session.gives(&open(4, 0, 4, 0, 2, 1), "00");
    session.gives(&ask(4, READ, 0), "00 04");
    session.gives(&measured(0, 4, 0, &[]), "00 00 00 04");
    session.gives(&report(0, 4, FILE_MARK, &[]), "00 03 00 FF");
    fails_with(&mut session, 11, |failure| failure == 11);
    session.gives(&measured(0, 0, 2, &[]), "00 00 00 00");
    for _ in 12..=100 {
        session.gives(&report(0, 0, REDUNDANCY, &[]), "00 00 00 00");
    }
    session.gives(&report(0, 0, REDUNDANCY, &[]), "00 05 00 FF");
    session.gives(&close(0), "00");
    session.gives(&open(0, 0, 0, 0, 3, 3), "00");
    reads_more(&mut session, 3);
    fails_with(&mut session, 11, |_| false);
    // At attempt 11, before the list's first: 00 then and 00 after it.
    let mut session = after_records(3);
    fails_with(&mut session, 10, |_| false);
    session.gives(&measured(0, 0, 0, &[]), "00 00 00 00");
    session.gives(&report(0, 0, REDUNDANCY, &[]), "00 00 00 00");
}

/// Reading I8: only outcome 1, and two bytes more than a multiple of five; 1 to a write or mark at work, 11 if
/// the channel does not work for the unit.
#[test]
fn i8_where_a_length_may_stand() {
    let mut session = input(0, 3, 3);
    session.refuses(&measured(0, 0, 5, &[]), "0B");
    session.refuses(&measured(0, 0, 1, &[5]), "0B");
    session.refuses(&measured(0, 9, 0, &[]), "0B");
    session.refuses(&measured(0, 10, 0, &[]), "01");
    for outcome in [GOOD, INCOMPLETE, FILE_MARK, END_OF_MEDIUM, 5] {
        session.refuses(&format!("040000{outcome:02X}0001"), "01");
        session.refuses(&format!("040000{outcome:02X}0001{}", words(&[5])), "01");
    }
    session.gives(&ask(0, READ, 0), "00 00");
    for outcome in [GOOD, INCOMPLETE, FILE_MARK, END_OF_MEDIUM, 5] {
        session.refuses(&format!("040000{outcome:02X}0001"), "01");
        session.refuses(&format!("040000{outcome:02X}0001{}", words(&[5])), "01");
    }
    for rest in ["00", "000000", "00000000", "000000000000", "0000000000000000"] {
        session.refuses(&format!("04000001{rest}"), "01");
    }
    session.gives(&measured(0, 0, 5, &[]), "00 00 00 00");
    let mut session = output(0, 1, 1);
    session.gives(&ask(0, MARK, 0), "00 00");
    session.refuses(&measured(0, 0, 5, &[]), "01");
    session.gives(&report(0, 0, GOOD, &[]), "00 01 00 FF");
    session.gives(&put(0, &[5]), "00");
    session.gives(&ask(0, WRITE, 0), "00 00");
    session.refuses(&measured(0, 0, 0, &[]), "01");
    session.refuses(&measured(0, 0, 1, &[5]), "01");
}

/// Reading I9: the length is the number of the words that follow, judged on an idle channel too; without words
/// it is any.
#[test]
fn i9_the_length_is_the_number_of_the_words() {
    let mut session = input(0, 3, 3);
    for works in [false, true] {
        for length in [0, 1, 3, 65_535] {
            session.refuses(&measured(0, 0, length, &[5, 6]), "01");
            session.refuses(&measured(0, 0, length, &[5, TOO_LARGE]), "01");
        }
        session.refuses(&measured(0, 0, 2, &[5, TOO_LARGE]), "02");
        if !works {
            session.gives(&ask(0, READ, 0), "00 00");
        }
    }
    session.refuses(&measured(0, 0, 4, &[5; 4]), "0D");
    for length in [0, 1, 2, 3, 4, 1_025, 65_535] {
        session.gives(&measured(0, 0, length, &[]), "00 00 00 00");
    }
    session.gives(&measured(0, 0, 3, &[5; 3]), "00 00 00 00");
}

/// Reading I11: 10,252 digits are a report with a length and 1,024 words.
#[test]
fn i11_lines_run_to_10252_digits() {
    let mut session = Session::fresh(4, 1_024);
    session.gives(&open(0, 0, 0, 0, 1_024, 1_024), "00");
    session.gives(&ask(0, READ, 0), "00 00");
    let longest = measured(0, 0, 1_024, &[5; 1_024]);
    assert_eq!(longest.len(), 10_252);
    session.gives(&longest, "00 00 00 00");
    session.refuses(&measured(0, 0, 1_025, &[5; 1_025]), "01");
    session.refuses(&format!("{longest}00"), "01");
    session.refuses(&report(0, 0, REDUNDANCY, &[5; 1_025]), "01");
    session.gives(&report(0, 0, GOOD, &[5; 1_024]), "00 01 00 .. FF");
}

/// Reading I12: a noise record uses no attempt, and its activity has ended: a priority request displaces, a
/// freeze stops.
#[test]
fn i12_a_noise_record_ends_its_activity_and_uses_no_attempt() {
    let mut session = inputs(&[2, 5, 7]);
    session.gives(&ask(5, READ, 0), "00 05");
    session.gives(&ask(2, READ, 1), "00 05");
    session.gives(&measured(0, 5, 0, &[]), "00 00 00 02");
    session.gives(&measured(0, 2, 2, &[]), "00 00 00 02");
    session.gives(&ask(7, READ, 1), "00 02");
    session.gives(&measured(0, 2, 2, &[]), "00 00 00 02");
    session.gives(&report(0, 2, FILE_MARK, &[]), "00 03 00 07");
    session.gives(&report(0, 7, FILE_MARK, &[]), "00 03 00 05");
    session.gives(FREEZE, "00");
    session.gives(&measured(0, 5, 1, &[5]), "00 00 00 FF");
    session.gives(THAW, "00");
    // Three failures come before attempt 4, however many noise records stand between them (I17).
    for _ in 0..3 {
        session.gives(&measured(0, 5, 0, &[]), "00 00 00 05");
        session.gives(&report(0, 5, REDUNDANCY, &[]), "00 00 00 05");
        session.gives(&measured(0, 5, 2, &[]), "00 00 00 05");
    }
    session.gives(&report(0, 5, GOOD, &[9]), "00 02 00 .. FF");
}

/// Reading I14: a hundred are passed in one operation, at attempt 101 too; then each is a redundancy. So 201
/// reports answer any read.
#[test]
fn i14_at_most_a_hundred_noise_records_are_passed() {
    let mut session = after_records(0);
    for _ in 0..2 {
        fails_with(&mut session, 50, |_| false);
        for _ in 0..100 {
            session.gives(&measured(0, 0, 2, &[]), "00 00 00 00");
        }
        for _ in 0..50 {
            session.gives(&measured(0, 0, 2, &[]), "00 00 00 00");
        }
        session.gives(&measured(0, 0, 2, &[]), "00 05 00 FF");
    }
    fails_with(&mut session, 100, |_| false);
    for _ in 0..100 {
        session.gives(&measured(0, 0, 0, &[]), "00 00 00 00");
    }
    session.gives(&measured(0, 0, 0, &[]), "00 05 00 FF");
    // A displaced request keeps its count.
    session.gives(&open(4, 0, 4, 0, 2, 1), "00");
    fails_with(&mut session, 100, |_| false);
    for _ in 0..60 {
        session.gives(&measured(0, 0, 0, &[]), "00 00 00 00");
    }
    session.gives(&ask(4, READ, 1), "00 00");
    session.gives(&measured(0, 0, 0, &[]), "00 00 00 04");
    session.gives(&report(0, 4, FILE_MARK, &[]), "00 03 00 00");
    for _ in 0..39 {
        session.gives(&measured(0, 0, 0, &[]), "00 00 00 00");
    }
    session.gives(&measured(0, 0, 0, &[]), "00 05 00 FF");
}

/// Reading I15: without a length there is no noise, however few words come.
#[test]
fn i15_without_a_length_there_is_no_noise() {
    let mut session = after_records(3);
    session.gives(&ask(0, READ, 0), "00 00");
    for _ in 0..10 {
        session.gives(&report(0, 0, REDUNDANCY, &[5]), "00 00 00 00");
    }
    session.gives(&report(0, 0, REDUNDANCY, &[5]), "00 07 00 00");
}

/// Reading I16: words with a noise length are sized, then dropped; past the hundred, at attempt 101, they are
/// kept.
#[test]
fn i16_words_of_noise_records() {
    let mut session = input(SEQUENCE, 3, 3);
    session.gives(&ask(0, READ, 0), "00 00");
    session.refuses(&measured(0, 0, 1, &[5]), "0D");
    session.gives(&measured(0, 0, 2, &[5, 1]), "00 00 00 00");
    session.gives(&get(0), "00 01");
    for _ in 0..100 {
        session.gives(&report(0, 0, REDUNDANCY, &[]), "00 00 00 00");
    }
    for _ in 0..99 {
        session.gives(&measured(0, 0, 2, &[5, 1]), "00 00 00 00");
    }
    session.gives(&measured(0, 0, 2, &[5, 9]), "00 05 01 00000005 0001 00000000 0009 FF");
    session.gives(&get(0), "00 03 04 00000005 0001 00000000 0009");
    session.gives(&get(0), "00 03 01 00000005 0001 00000000 0009");
    session.gives(&get(0), &format!("00 04 {}", words(&[5])));
}

/// Reading K5: a noise record moves neither mark, and the scan finds what displaces after it.
#[test]
fn k5_a_noise_record_is_no_end() {
    let mut session = inputs(&[1, 3, 6, 8]);
    session.gives(&ask(3, READ, 1), "00 03");
    session.gives(&report(0, 3, FILE_MARK, &[]), "00 03 00 FF");
    session.gives(&ask(6, READ, 0), "00 06");
    session.gives(&ask(1, READ, 1), "00 06");
    session.gives(&ask(8, READ, 1), "00 06");
    session.gives(&measured(0, 6, 1, &[]), "00 00 00 08");
    session.gives(&measured(0, 8, 1, &[]), "00 00 00 08");
    session.gives(&report(0, 8, FILE_MARK, &[]), "00 03 00 01");
    session.gives(&report(0, 1, FILE_MARK, &[]), "00 03 00 06");
    session.gives(&report(0, 6, FILE_MARK, &[]), "00 03 00 FF");
}

#[test]
fn e3_a_failed_read_gives_its_buffer_back_and_uses_no_number() {
    let mut session = input(SEQUENCE, 1, 1);
    session.gives(&ask(0, READ, 0), "00 00");
    session.gives(&report(0, 0, INCOMPLETE, &[]), "00 00 00 00");
    session.gives(&report(0, 0, INCOMPLETE, &[]), "00 06 00 FF");
    session.gives(&get(0), "00 01");
    session.reads(&[7, 1], 0);
}

#[test]
fn e4_blocks_under_three_words_are_blocks() {
    let mut session = input(0, 4, 4);
    session.reads(&[7], 0);
    session.gives(&get(0), &format!("00 04 {}", words(&[7])));
}

#[test]
fn e5_a_mark_has_neither_incomplete_words_nor_file_marks() {
    let mut session = output(0, 1, 1);
    session.gives(&ask(0, MARK, 0), "00 00");
    session.refuses(&report(0, 0, INCOMPLETE, &[]), "0C");
    session.refuses(&report(0, 0, FILE_MARK, &[]), "0C");
    for _ in 0..26 {
        session.gives(&report(0, 0, REDUNDANCY, &[]), "00 00 00 00");
    }
    session.gives(&report(0, 0, REDUNDANCY, &[]), "00 05 00 FF");
}

#[test]
fn e6_each_request_counts_from_attempt_1() {
    let mut session = inputs(&[0]);
    for _ in 0..2 {
        session.gives(&ask(0, READ, 0), "00 00");
        session.gives(&report(0, 0, INCOMPLETE, &[]), "00 00 00 00");
        session.gives(&report(0, 0, REDUNDANCY, &[]), "00 00 00 00");
        session.gives(&report(0, 0, GOOD, &[1]), "00 01 00 .. FF");
        session.gives(&skip(0), "00");
    }
}

#[test]
fn p8_26_write_redundancies_repeat_and_the_27th_is_permanent() {
    let mut session = output(0, 1, 1);
    session.gives(&put(0, &[7]), "00");
    session.gives(&ask(0, WRITE, 0), "00 00");
    for _ in 0..26 {
        session.gives(&report(0, 0, REDUNDANCY, &[]), "00 00 00 00");
    }
    session.gives(&report(0, 0, REDUNDANCY, &[]), "00 05 00 FF");
}

#[test]
fn p10_a_priority_request_displaces() {
    let mut session = inputs(&[0, 1]);
    session.gives(&ask(1, READ, 0), "00 01");
    session.gives(&ask(0, READ, 1), "00 01");
    session.gives(&report(0, 1, REDUNDANCY, &[]), "00 00 00 00");
    session.gives(&report(0, 0, GOOD, &[1]), "00 01 00 .. 01");
    for _ in 0..2 {
        session.gives(&report(0, 1, REDUNDANCY, &[]), "00 00 00 01");
    }
    session.gives(&report(0, 1, GOOD, &[1]), "00 02 00 .. FF");
}

#[test]
fn p11_two_free_two_asked_opens_and_one_free_is_7() {
    let mut session = Session::fresh(2, 4);
    session.gives(&open(0, 0, 0, DOUBLE, 2, 1), "00");
    session.gives(&close(0), "00");
    session.gives(&open(0, 0, 0, 0, 2, 1), "00");
    session.refuses(&open(1, 0, 1, DOUBLE, 2, 1), "07");
}

#[test]
fn p1_as_a_block() {
    let mut session = output(SEQUENCE + CHECK, 2, 1);
    session.gives(&put(0, &[1]), "00");
    session.gives(&put(0, &[2]), "00");
    session.gives(&ask(0, WRITE, 0), "00 00");
    session.gives(&report(0, 0, GOOD, &[]), &format!("00 01 00 FF {}", words(&[1, 2, 786_433])));
}
