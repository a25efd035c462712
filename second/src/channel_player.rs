//! The subcommand `channel`: plays events, one a line, on one channel and answers each.

use crate::channel::{Channel, Operation, Position, UNITS};
use crate::pack::NO_LENGTH;
use crate::state_fields::request_fields;
use crate::text::answer_lines;

/// The working unit's number if there is none.
pub const NO_UNIT: u64 = 255;

/// Plays every event of `input`. The channel has no unit before the first fresh start.
pub fn answer_events(input: &str) -> Result<String, String> {
    let mut channel = Channel::fresh([false; UNITS]);
    answer_lines(input, |event| answer_event(&mut channel, event))
}

/// Plays one event; the first number is its kind.
pub fn answer_event(channel: &mut Channel, event: &[u64]) -> Option<Vec<u64>> {
    match *event {
        [0, mask] => {
            *channel = Channel::fresh(declared_units(mask)?);
            Some(vec![0])
        }
        [1, unit, operation, priority] => {
            let accepted = ask(channel, unit, operation, priority).is_some();
            Some(vec![u64::from(accepted), working(channel)])
        }
        [2, unit, outcome, length] => {
            let length = length_of(channel, unit, outcome, length)?;
            let (refusal, result) = match channel.report_length(unit, outcome, length) {
                Ok(booked) => (0, booked.number()),
                Err(refusal) => (refusal, 0),
            };
            Some(vec![refusal, result, working(channel)])
        }
        [3] => {
            channel.freeze();
            Some(vec![working(channel)])
        }
        [4] => {
            channel.thaw();
            Some(vec![working(channel)])
        }
        [5] => Some(whole_channel(channel)),
        _ => None,
    }
}

/// The length of a report, if it is one that a report of this outcome to this unit may carry: with a redundancy
/// alone, and not to a write or mark at work.
fn length_of(channel: &Channel, unit: u64, outcome: u64, length: u64) -> Option<Option<u64>> {
    let other = channel.working_request(unit).is_some_and(|request| request.operation != Operation::Read);
    match length {
        NO_LENGTH => Some(None),
        _ if length < NO_LENGTH && outcome == 1 && !other => Some(Some(length)),
        _ => None,
    }
}

/// The units of a mask, "bit u for unit u"; a mask has ten bits.
fn declared_units(mask: u64) -> Option<[bool; UNITS]> {
    let declared = std::array::from_fn(|unit| mask >> unit & 1 == 1);
    (mask >> UNITS == 0).then_some(declared)
}

/// Asks if the unit is declared and idle and the numbers are in their ranges; else changes nothing.
fn ask(channel: &mut Channel, unit: u64, operation: u64, priority: u64) -> Option<()> {
    let operation = Operation::of(operation)?;
    let unit = usize::try_from(unit).ok().filter(|&unit| unit < UNITS)?;
    let idle = channel.requests[unit].is_none();
    (priority <= 1 && channel.declared[unit] && idle).then(|| channel.ask(unit, operation, priority == 1))
}

fn working(channel: &Channel) -> u64 {
    channel.working_unit().map_or(NO_UNIT, |unit| unit as u64)
}

/// Ten numbers for each unit, then the units at which the next scans begin, ordinary and priority, then
/// frozen.
fn whole_channel(channel: &Channel) -> Vec<u64> {
    let mut numbers = Vec::new();
    for unit in 0..UNITS {
        numbers.push(u64::from(channel.declared[unit]));
        numbers.extend(channel.requests[unit].as_ref().map_or([0; 6], request_fields));
        let Position { marks, records, noise_met } = channel.positions[unit];
        numbers.extend([marks, records, u64::from(noise_met)]);
    }
    numbers.extend([channel.scan_begin as u64, channel.priority_begin as u64]);
    numbers.push(u64::from(channel.frozen));
    numbers
}

#[cfg(test)]
mod tests {
    use super::*;

    fn answers(input: &str, output: &str) {
        assert_eq!(answer_events(input).as_deref(), Ok(output), "{input}");
    }

    #[test]
    fn p10_as_events() {
        answers(
            "0 1023\n1 1 0 0\n1 0 0 1\n2 1 1 65536\n2 0 0 65536\n2 1 0 65536\n2 1 0 65536\n",
            "0\n1 1\n1 1\n0 0 0\n0 1 1\n0 1 255\n11 0 255\n",
        );
    }

    #[test]
    fn asks_that_are_not_accepted_change_nothing() {
        let asks = ["1 10 0 0", "1 255 0 0", "1 3 0 0", "1 0 3 0", "1 0 255 0", "1 0 0 2", "1 1 0 0"];
        let mut channel = Channel::fresh(declared_units(0b11).expect("a mask"));
        assert_eq!(answer_event(&mut channel, &[1, 1, 2, 0]), Some(vec![1, 1]));
        let before = channel.clone();
        for line in asks {
            let event = crate::text::numbers_of(line).expect("numbers");
            assert_eq!(answer_event(&mut channel, &event), Some(vec![0, 1]), "{line}");
            assert_eq!(channel, before);
        }
        assert_eq!(answer_event(&mut channel, &[1, 0, 2, 1]), Some(vec![1, 1]));
    }

    #[test]
    fn reports_freeze_and_thaw() {
        answers(
            "0 3\n1 0 0 0\n3\n2 0 4 65536\n2 1 9 65536\n2 0 1 5\n4\n2 0 3 65536\n",
            "0\n1 0\n0\n12 0 0\n11 0 0\n0 0 255\n0\n0 3 255\n",
        );
    }

    #[test]
    fn the_whole_channel() {
        let input = "0 5\n1 2 0 0\n2 2 2 65536\n2 2 1 2\n1 0 1 1\n2 2 1 3\n3\n5\n";
        let idle = "0 0 0 0 0 0 0 0 0 0 ";
        let whole = format!("1 3 1 1 1 0 0 0 0 0 {idle}1 2 0 0 3 1 1 0 0 1 {}0 0 1\n", idle.repeat(7));
        answers(input, &format!("0\n1 2\n0 0 2\n0 0 2\n1 2\n0 0 0\n0\n{whole}"));
        let clear = "1 0 0 0 0 0 0 0 0 0 ";
        let [before, behind] = [clear.repeat(6), clear.repeat(3)];
        let after = |marks| format!("{before}1 0 0 0 0 0 0 1 0 0 {behind}{marks} 0\n");
        answers("0 1023\n1 6 2 0\n2 6 4 65536\n5\n", &format!("0\n1 6\n0 4 255\n{}", after("7 0")));
        answers("0 1023\n1 6 2 1\n2 6 4 65536\n5\n", &format!("0\n1 6\n0 4 255\n{}", after("0 7")));
    }

    /// The fourth good read makes a fourth record; the 11th failure then is 07, and a short record at unit 3
    /// changes nothing at unit 2.
    #[test]
    fn backspace_three() {
        let read = "1 2 0 0\n2 2 0 65536\n".repeat(3);
        let fail = "2 2 1 65536\n".repeat(10);
        let input =
            format!("0 12\n{read}1 3 0 1\n2 3 1 1\n2 3 3 65536\n1 2 0 0\n{fail}2 2 1 65535\n2 2 1 0\n");
        let reads = "1 2\n0 1 255\n".repeat(3);
        let fails = "0 0 2\n".repeat(10);
        answers(&input, &format!("0\n{reads}1 3\n0 0 3\n0 3 255\n1 2\n{fails}0 7 2\n0 0 2\n"));
    }

    #[test]
    fn a_waiting_unit_is_told_from_a_displaced_one() {
        let mut channel = Channel::fresh([true; UNITS]);
        for event in [[1, 4, 0, 0].as_slice(), &[1, 5, 2, 0], &[3], &[2, 4, 1, 65_536]] {
            answer_event(&mut channel, event).expect("an event");
        }
        let whole = whole_channel(&channel);
        assert_eq!(whole.len(), 103);
        assert_eq!(whole[40..50], [1, 2, 0, 0, 2, 0, 0, 0, 0, 0]);
        assert_eq!(whole[50..60], [1, 1, 2, 0, 1, 0, 0, 0, 0, 0]);
        assert_eq!(whole[100..], [0, 0, 1]);
    }

    #[test]
    fn lines_that_are_no_event() {
        for line in [
            "",
            "6",
            "0",
            "0 1024",
            "1 1 1",
            "2 1",
            "2 1 1",
            "2 1 1 65537",
            "2 1 0 5",
            "2 1 2 0",
            "3 1",
            "5 0",
        ] {
            let input = line.to_string() + "\n";
            assert_eq!(answer_events(&input), Err("line 1 is not understood".to_string()), "{line}");
        }
    }
}
