//! Special routines by priority (document 02, M-110): the sentences of the readings as sessions, and what holds of
//! every history, over random ones.

use second::frame::{answer_line, frame_of, Frame};
use second::generate::session_of;
use second::pack::Pack;
use second::profile::Profile;
use second::routine::{Entered, Program, Routine, DEEPEST};
use second::session::new_pack;
use second::sound::broken_clauses;
use second::state_pack::{pack_of, state_of};

const GOOD: u64 = 0;
const FREEZE: &str = "09";
const THAW: &str = "0A";
const RETURN: &str = "0B";
const RUNNING: &str = "0C";
const MAIN: &str = "00 FFFFFF";

/// A session with output files for marks on units 0 to 2 of channels 0 to 4; file 3c + u is on unit u of channel c.
struct Session {
    pack: Pack,
}

impl Session {
    fn new() -> Session {
        let mut session = Session { pack: new_pack() };
        session.gives("00 20 0004 03FF 03FF 03FF 03FF 03FF", "00");
        for file in 0..15 {
            session.gives(&format!("01 {file:02X} {:02X} {:02X} 01 0002 0001", file / 3, file % 3), "00");
        }
        session
    }

    /// The frame gets the answer; blanks are for reading only.
    fn gives(&mut self, frame: &str, answer: &str) {
        let given = answer_line(&mut self.pack, frame.replace(' ', "").as_bytes());
        assert_eq!(String::from_utf8_lossy(&given), answer.replace(' ', ""), "{frame}");
    }

    /// The frame gets the answer, and nothing is changed.
    fn refuses(&mut self, frame: &str, answer: &str) {
        let before = self.pack.clone();
        self.gives(frame, answer);
        assert!(self.pack == before, "changed by {frame}");
    }

    /// A mark of a file that names a routine of a priority; the routine's number is the file's.
    fn asks(&mut self, file: u8, level: u8) {
        let frame = format!("03{file:02X}0200{file:02X}{level:02X}");
        let given = answer_line(&mut self.pack, frame.as_bytes());
        assert!(given.starts_with(b"00"), "{frame}");
    }

    /// The good end of a file's mark.
    fn ends(&mut self, file: u8) {
        self.gives(&format!("04{:02X}{:02X}00", file / 3, file % 3), "00 01 00 FF");
    }

    fn becomes_due(&mut self, file: u8, level: u8) {
        self.asks(file, level);
        self.ends(file);
    }

    /// What runs is a file's routine.
    fn runs(&mut self, file: u8) {
        self.refuses(RUNNING, &format!("00 {:02X} {:02X} {file:02X}", file / 3, file % 3));
    }

    fn runs_main(&mut self) {
        self.refuses(RUNNING, MAIN);
    }

    /// A return enters a file's routine.
    fn enters(&mut self, file: u8) {
        self.gives(RETURN, &format!("00 01 {:02X} {:02X} {file:02X}", file / 3, file % 3));
    }

    /// A return resumes a file's routine.
    fn resumes(&mut self, file: u8) {
        self.gives(RETURN, &format!("00 00 {:02X} {:02X} {file:02X}", file / 3, file % 3));
    }

    fn resumes_main(&mut self) {
        self.gives(RETURN, "00 00 FFFFFF");
    }
}

/// R1: the main program is below 0; a routine of any priority interrupts it.
#[test]
fn r1_any_routine_is_above_the_main_program() {
    for level in 0..5 {
        let mut session = Session::new();
        session.runs_main();
        session.asks(7, level);
        session.runs_main();
        session.ends(7);
        session.runs(7);
        session.resumes_main();
        session.runs_main();
    }
}

/// R2: "a due routine of higher priority than the one in progress is entered and the interrupted one goes on a
/// push-down list"; one of the same priority or of a lower one waits.
#[test]
fn r2_a_higher_routine_interrupts() {
    let mut session = Session::new();
    session.becomes_due(0, 1);
    session.becomes_due(1, 1);
    session.becomes_due(2, 0);
    session.runs(0);
    session.becomes_due(3, 3);
    session.runs(3);
    session.becomes_due(4, 2);
    session.runs(3);
    session.enters(4);
    session.resumes(0);
    session.enters(1);
    session.enters(2);
    session.resumes_main();
    session.refuses(RETURN, "12");
}

/// R2: a look enters at most one, after a thaw too.
#[test]
fn r2_a_look_enters_one() {
    let mut session = Session::new();
    for (file, level) in [(0, 1), (3, 2), (6, 3)] {
        session.asks(file, level);
    }
    session.gives(FREEZE, "00");
    for file in [6, 3, 0] {
        session.ends(file);
        session.runs_main();
    }
    session.gives(THAW, "00");
    session.runs(6);
    session.gives(THAW, "00");
    session.runs(6);
    session.enters(3);
    session.enters(0);
    session.resumes_main();
}

/// R2: looks are made "at no other time" than after a report that answers a request, and after a thaw.
#[test]
fn r2_no_other_call_looks() {
    let mut session = Session::new();
    session.asks(0, 4);
    session.gives(FREEZE, "00");
    session.ends(0);
    // Thawed by hand, nothing looks: asks, reports that repeat, opens, closes, what runs.
    session.pack.channels.iter_mut().for_each(|channel| channel.frozen = false);
    for (frame, answer) in [
        ("03030200", "00 00"),
        ("04010001", "00 00 00 00"),
        ("0201", "00"),
        ("010100010100020001", "00"),
        ("06010000000001", "00"),
        ("0701", "00"),
        (RUNNING, MAIN),
    ] {
        session.gives(frame, answer);
        assert_eq!(session.pack.running(), Program::Main, "{frame}");
    }
    session.gives("04010000", "00 01 00 FF");
    session.runs(0);
}

/// R2: "With a full list, depth four here, nothing is interrupted": main, 0, 1, 2 below a running 3, with a 4 waiting.
#[test]
fn r2_a_full_list_keeps_a_4_out() {
    let mut session = Session::new();
    for file in 0..4 {
        session.becomes_due(file, file);
        session.runs(file);
    }
    session.becomes_due(4, 4);
    session.runs(3);
    session.gives(THAW, "00");
    session.runs(3);
    session.enters(4);
    session.resumes(2);
    session.resumes(1);
    session.resumes(0);
    session.resumes_main();
}

/// R3: "the highest waiting routine is entered if it is above the program last pushed, otherwise that program
/// resumes"; when one is entered the list stays.
#[test]
fn r3_a_return_goes_by_the_program_last_pushed() {
    let mut session = Session::new();
    session.becomes_due(0, 2);
    session.becomes_due(1, 4);
    for (file, level) in [(3, 2), (4, 3), (5, 3), (6, 1)] {
        session.becomes_due(file, level);
    }
    session.runs(1);
    session.enters(4);
    session.enters(5);
    session.resumes(0);
    session.enters(3);
    session.enters(6);
    session.resumes_main();
}

/// R3: "In a freeze a return resumes"; 18 "exactly if the main program runs".
#[test]
fn r3_returns_in_a_freeze() {
    let mut session = Session::new();
    session.refuses(RETURN, "12");
    session.becomes_due(0, 0);
    session.becomes_due(1, 1);
    session.asks(2, 4);
    session.gives(FREEZE, "00");
    session.ends(2);
    session.resumes(0);
    session.resumes_main();
    session.refuses(RETURN, "12");
    session.gives(THAW, "00");
    session.runs(2);
    session.resumes_main();
    let mut before = Session { pack: new_pack() };
    before.refuses(RETURN, "12");
    before.runs_main();
}

/// League: "ties go to the lowest channel, then unit", at a return and at a thaw.
#[test]
fn ties_go_to_the_lowest_channel_then_unit() {
    for by_thaw in [false, true] {
        let mut session = Session::new();
        session.becomes_due(0, 4);
        for file in [14, 8, 10, 7, 5, 9] {
            session.becomes_due(file, 2);
        }
        session.becomes_due(1, 1);
        if by_thaw {
            session.gives(FREEZE, "00");
            session.resumes_main();
            session.gives(THAW, "00");
            session.runs(5);
        } else {
            session.enters(5);
        }
        for file in [7, 8, 9, 10, 14, 1] {
            session.enters(file);
        }
        session.resumes_main();
    }
}

/// R4: due "by any result of 01 to 06, not by 00 or 07".
#[test]
fn r4_what_makes_a_routine_due() {
    let input = "01 0F 00 09 00 0002 0001";
    let word = "0000000005";
    for (failures, last, result) in [
        (&[][..], format!("04000900{word}"), "01"),
        (&["04000901"; 3], format!("04000900{word}"), "02"),
        (&[], "04000903".to_string(), "03"),
        (&["04000901"; 100], "04000901".to_string(), "05"),
        (&["04000901"; 100], format!("04000901{word}"), "05"),
        (&["04000902"], "04000902".to_string(), "06"),
    ] {
        let mut session = Session::new();
        session.gives(input, "00");
        session.gives("03 0F 00 00 21 03", "00 09");
        for failure in failures {
            session.gives(failure, "00 00 00 09");
            session.runs_main();
        }
        let given = answer_line(&mut session.pack, last.as_bytes());
        assert!(given.starts_with(format!("00{result}").as_bytes()), "{last}");
        session.gives(RUNNING, "00 00 09 21");
    }
    // 04 of a mark and of a write; 05 and 06 of a write.
    let mut session = Session::new();
    session.asks(0, 2);
    session.gives("04000004", "00 04 00 FF");
    session.runs(0);
    for (reports, end) in [(&[][..], "04000104"), (&["04000101"; 26], "04000101"), (&[], "04000102")] {
        let mut session = Session::new();
        session.gives("06 01 0000000001", "00");
        session.gives("07 01", "00");
        session.gives("03 01 01 00 01 02", "00 01");
        for report in reports {
            session.gives(report, "00 00 00 01");
            session.runs_main();
        }
        answer_line(&mut session.pack, end.as_bytes());
        session.runs(1);
    }
    // 07: three records, then eleven failures.
    let mut session = Session::new();
    session.gives(input, "00");
    for _ in 0..3 {
        session.gives("03 0F 00 00", "00 09");
        answer_line(&mut session.pack, format!("04000900{word}").as_bytes());
        session.gives("08 0F", "00");
    }
    session.gives("03 0F 00 00 21 03", "00 09");
    for _ in 0..10 {
        session.gives("04000901", "00 00 00 09");
    }
    session.gives("04000901", "00 07 00 09");
    session.runs_main();
    session.gives("04000903", "00 03 00 FF");
    session.gives(RUNNING, "00 00 09 21");
}

/// R4: "the unit takes asks again while its routine runs"; "A unit whose routine waits refuses ask with 8, whatever
/// its file; close is not refused for it, and a later file on the unit meets the 8".
#[test]
fn r4_a_unit_whose_routine_waits() {
    let mut session = Session::new();
    session.becomes_due(0, 4);
    session.asks(0, 4);
    session.refuses("03000200", "08");
    session.ends(0);
    session.refuses("03000200", "08");
    session.refuses("030002000000", "08");
    session.refuses("030002000005", "01");
    session.refuses("03000000", "06");
    session.gives("0200", "00");
    session.refuses("03000200", "05");
    session.gives("01 0F 00 00 00 0002 0001", "00");
    session.refuses("030F0000", "08");
    session.runs(0);
    session.enters(0);
    session.gives("030F0000", "00 00");
    session.resumes_main();
}

/// A16 with R4: "a read that met the mark, whose routine waits": 8, and 10 when it no longer waits.
#[test]
fn a16_8_comes_before_10() {
    let mut session = Session::new();
    session.gives("01 0F 00 09 00 0002 0001", "00");
    session.becomes_due(0, 4);
    session.gives("030F0000 0103", "00 09");
    session.gives("04000903", "00 03 00 FF");
    session.refuses("030F0000", "08");
    session.gives(RETURN, "00 01 00 09 01");
    session.refuses("030F0000", "0A");
}

/// R5: "A fresh start drops waiting routines and the list; the main program runs. An open and a close leave them."
#[test]
fn r5_a_fresh_start_drops_routines() {
    let mut session = Session::new();
    for (file, level) in [(0, 0), (1, 1), (2, 2), (3, 2), (4, 0)] {
        session.becomes_due(file, level);
    }
    session.asks(5, 3);
    for file in [0, 1, 2, 3, 4] {
        session.gives(&format!("02{file:02X}"), "00");
    }
    session.gives("01 00 02 05 01 0001 0001", "00");
    session.runs(2);
    session.refuses("00 00 0004 03FF 03FF 03FF 03FF 03FF", "01");
    session.runs(2);
    session.gives("00 01 0001 03FF 03FF 03FF 03FF 03FF", "00");
    session.runs_main();
    session.refuses(RETURN, "12");
    session.gives(THAW, "00");
    session.runs_main();
    let mut fresh = Session { pack: new_pack() };
    fresh.gives("00 01 0001 03FF 03FF 03FF 03FF 03FF", "00");
    assert_eq!(session.pack.channels, fresh.pack.channels);
    assert_eq!(session.pack.schedule, fresh.pack.schedule);
}

/// R6: levels 0 to 4, routine any byte; the four-byte form names none.
#[test]
fn r6_frames() {
    let mut session = Session::new();
    for level in [5, 6, 127, 255] {
        session.refuses(&format!("03000200FF{level:02X}"), "01");
        session.refuses(&format!("03100200FF{level:02X}"), "01");
    }
    for malformed in ["0300020001", "03000200010100", "0B00", "0C00", "0D", "0b", "0BB", "0C0"] {
        session.refuses(malformed, "01");
    }
    session.gives("03000200", "00 00");
    session.gives("04000000", "00 01 00 FF");
    session.runs_main();
    session.gives("03000201FF00", "00 00");
    session.gives("04000000", "00 01 00 FF");
    session.refuses(RUNNING, "00 00 00 FF");
    session.gives("030102010004", "00 01");
    session.gives("04000100", "00 01 00 FF");
    session.refuses(RUNNING, "00 00 01 00");
    session.gives(RETURN, "00 00 00 00 FF");
}

/// What became of the routines of a session: told by its frames and answers and by nothing else.
#[derive(Default)]
struct Log {
    /// What each unit's request names, and what is due there, with the number of its making.
    named: Vec<(u64, u64, Routine)>,
    due: Vec<(Entered, usize)>,
    made: usize,
    /// The numbers that were entered.
    entered: Vec<usize>,
    /// What runs and what it interrupted, as entered.
    programs: Vec<Program>,
}

fn place_of(pack: &Pack, file: u64) -> (u64, u64) {
    let file = pack.file(file).expect("an open file");
    (file.channel as u64, file.unit as u64)
}

/// R8, over random sessions: what was made due is entered at most once, exactly once if it no longer waits and no
/// fresh start came; programs resume in the reverse order of their interruption; when nothing is frozen and the list
/// is not full, what runs is at least as high as all that wait; a report enters only the routine that it made due;
/// and every state is sound and goes to a state and back.
#[test]
fn r8_over_histories() {
    for (profile, seed) in
        [(Profile::Routines, 11), (Profile::Routines, 12), (Profile::Turns, 3), (Profile::Mixed, 3)]
    {
        let mut pack = new_pack();
        let mut log = Log::default();
        for (index, line) in session_of(profile, seed, 6_000).into_iter().enumerate() {
            let before = pack.clone();
            let answer = answer_line(&mut pack, &line);
            let frame = frame_of(&line).filter(|_| answer.starts_with(b"00"));
            if frame.is_none() {
                assert!(pack == before, "a refused frame changes nothing");
            }
            follow(&mut log, &before, &pack, frame.as_ref(), &answer);
            // What waits is what was made due and not entered.
            let waiting: Vec<Entered> = log.due.iter().map(|(due, _)| *due).collect();
            let mut stands: Vec<Entered> = Vec::new();
            for (channel, state) in pack.channels.iter().enumerate() {
                for (unit, routine) in state.waiting.iter().enumerate() {
                    stands.extend(routine.map(|routine| Entered { channel, unit, routine }));
                }
            }
            assert_eq!(stands.len(), waiting.len());
            assert!(stands.iter().all(|stand| waiting.contains(stand)));
            let settled = stands.iter().all(|&stand| !Program::Special(stand).is_above(&pack.running()));
            assert!(settled || pack.is_frozen() || pack.schedule.pushed.len() == DEEPEST);
            // The stack of the log is what was interrupted, in order.
            let (runs, pushed) = log.programs.split_last().map_or((Program::Main, &[][..]), |(l, r)| (*l, r));
            assert_eq!(pack.running(), runs);
            let below = if runs == Program::Main { vec![] } else { [&[Program::Main][..], pushed].concat() };
            assert_eq!(pack.schedule.pushed, below);
            if index % 16 == 0 {
                let state = state_of(&pack);
                assert_eq!(broken_clauses(&state), []);
                assert!(pack_of(&state, &pack.area) == pack);
            }
        }
        let mut once = log.entered.clone();
        once.sort_unstable();
        once.dedup();
        assert_eq!(once.len(), log.entered.len(), "entered twice");
        assert!(profile != Profile::Routines || log.entered.len() > 800, "{}", log.entered.len());
    }
}

/// Follows one accepted frame.
fn follow(log: &mut Log, before: &Pack, after: &Pack, frame: Option<&Frame>, answer: &[u8]) {
    let enter = |log: &mut Log, entered: Program| {
        let Program::Special(entered) = entered else {
            panic!("the main program is not entered");
        };
        let place = log.due.iter().position(|(due, _)| *due == entered).expect("a routine that is due");
        let (_, number) = log.due.remove(place);
        log.entered.push(number);
    };
    match frame {
        Some(Frame::Fresh { .. }) => {
            log.named.clear();
            log.due.clear();
            log.programs.clear();
        }
        Some(Frame::Ask { file, names, .. }) => {
            let (channel, unit) = place_of(after, *file);
            log.named.extend(names.map(|routine| (channel, unit, routine)));
        }
        Some(Frame::Report { channel, unit, .. }) => {
            let answered = answer[2..4] != *b"00" && answer[2..4] != *b"07";
            let place = log.named.iter().position(|(c, u, _)| (c, u) == (channel, unit));
            let mut own = None;
            if let Some(place) = place.filter(|_| answered) {
                let (_, _, routine) = log.named.remove(place);
                let due = Entered { channel: *channel as usize, unit: *unit as usize, routine };
                log.due.push((due, log.made));
                log.made += 1;
                own = Some(Program::Special(due));
            }
            if after.running() != before.running()
                || after.schedule.pushed.len() > before.schedule.pushed.len()
            {
                assert_eq!(Some(after.running()), own, "a report enters only the routine that it made due");
                assert!(!before.is_frozen());
                enter(log, after.running());
                log.programs.push(after.running());
            }
        }
        Some(Frame::Thaw) => {
            if after.schedule.pushed.len() > before.schedule.pushed.len() {
                let highest = before.highest_waiting().map(Program::Special);
                assert_eq!(Some(after.running()), highest);
                enter(log, after.running());
                log.programs.push(after.running());
            }
        }
        Some(Frame::Return) => {
            let gone = log.programs.pop();
            assert_eq!(gone, Some(before.running()));
            if answer[2..4] == *b"01" {
                assert!(!before.is_frozen());
                enter(log, after.running());
                log.programs.push(after.running());
            }
        }
        _ => assert_eq!(before.schedule, after.schedule),
    }
}

/// R8: an ask or a report on one channel and one on another give the same in either order, but for two reports
/// that both answer requests that name a routine.
#[test]
fn r8_in_either_order() {
    let mut compared = 0;
    for seed in 21..25 {
        let mut pack = new_pack();
        let lines = session_of(Profile::Routines, seed, 4_000);
        for two in lines.windows(2) {
            if let Some(names) = on_two_channels(&pack, &two[0], &two[1]) {
                let [mut there, mut back] = [pack.clone(), pack.clone()];
                let first = [answer_line(&mut there, &two[0]), answer_line(&mut there, &two[1])];
                let second = [answer_line(&mut back, &two[1]), answer_line(&mut back, &two[0])];
                assert_eq!(first, [second[1].clone(), second[0].clone()]);
                assert!(names || there == back);
                compared += 1;
            }
            answer_line(&mut pack, &two[0]);
        }
    }
    assert!(compared > 400, "{compared}");
}

/// Whether two lines are asks or reports on different channels; and whether both are reports for requests that name
/// a routine.
fn on_two_channels(pack: &Pack, first: &[u8], second: &[u8]) -> Option<bool> {
    let place = |line: &[u8]| match frame_of(line)? {
        Frame::Ask { file, .. } => pack.file(file).map(|file| (file.channel as u64, false)),
        Frame::Report { channel, unit, .. } => {
            let state = pack.channels.get(channel as usize)?;
            Some((channel, state.named.get(unit as usize)?.is_some()))
        }
        _ => None,
    };
    let ((first, named), (second, too)) = (place(first)?, place(second)?);
    (first != second).then_some(named && too)
}

/// 1 for a number that no priority is, and GOOD ends a mark: the calls as the library has them.
#[test]
fn calls_of_the_library() {
    let mut session = Session::new();
    let routine = |number, level| Some(Routine { number, level });
    assert_eq!(session.pack.ask_naming(0, 2, 0, routine(0, 5)), Err(1));
    assert_eq!(session.pack.ask_naming(0, 2, 0, routine(256, 0)), Err(1));
    assert_eq!(session.pack.ask_naming(0, 2, 0, routine(255, 4)), Ok(Some(0)));
    assert_eq!(session.pack.give_back(), Err(18));
    session.pack.report(0, 0, GOOD, &[]).expect("a report");
    let entered = Entered { channel: 0, unit: 0, routine: Routine { number: 255, level: 4 } };
    assert_eq!(session.pack.running(), Program::Special(entered));
}
