//! The walks of `file-walks` are played on a whole pack too. The numbers that `files` gives are
//! compared with where the pack's words really lie, and its file with the pack's file.

use second::channel::Booked;
use second::file_player::{
    answer_walk_event, OpenFile, GET, OPEN, PUT, READ, READ_ERROR, READ_GOOD, READ_MARK, SEAL, SKIP,
    TO_WRITE, WRITE_ERROR, WRITTEN,
};
use second::file_walks::file_walks;
use second::pack::{Got, Opening, Pack, CHECK, DOUBLE, MOST_BUFFERS, MOST_WIDTH, OUTPUT, SEQUENCE};
use second::word::{fold, logical_sum, ones, Fields, Judged, HALF_BITS};

const ASK_READ: u64 = 0;
const ASK_WRITE: u64 = 1;

const GOOD: u64 = 0;
const REDUNDANCY: u64 = 1;
const INCOMPLETE: u64 = 2;
const FILE_MARK: u64 = 3;
const END_OF_MEDIUM: u64 = 4;

struct Walker {
    pack: Pack,
    opened: Option<OpenFile>,
    /// No two words that are given are alike, so that words tell their place.
    last_word: u64,
    /// Every other write ends with end of medium.
    writes: u64,
}

impl Walker {
    fn new() -> Walker {
        let area_words = (MOST_BUFFERS * MOST_WIDTH) as usize;
        Walker { pack: Pack::new(area_words), opened: None, last_word: 0, writes: 0 }
    }

    fn new_words(&mut self, count: u64) -> Vec<u64> {
        self.last_word += count;
        (self.last_word - count + 1..=self.last_word).collect()
    }

    fn play(&mut self, event: &[u64]) {
        let sent = self.sent();
        let answer = answer_walk_event(&mut self.opened, event).expect("an event");
        match event[0] {
            OPEN => self.open(event),
            READ => self.ask(ASK_READ),
            READ_GOOD => self.deliver(event),
            READ_ERROR => {
                assert_eq!(self.report(INCOMPLETE), (Booked::Repeated, vec![]));
                assert_eq!(self.report(INCOMPLETE), (Booked::PermanentIncompleteWord, vec![]));
            }
            READ_MARK => assert_eq!(self.report(FILE_MARK), (Booked::Mark, vec![])),
            GET => self.get(&answer),
            SKIP => self.pack.skip(0).expect("a skip"),
            PUT => self.put(&answer),
            SEAL => self.pack.seal(0).expect("a seal"),
            TO_WRITE => assert_eq!(sent.as_deref(), Some(&answer[..2])),
            WRITTEN => self.write(&sent.expect("a block")),
            WRITE_ERROR => {
                self.ask(ASK_WRITE);
                assert_eq!(self.report(INCOMPLETE), (Booked::PermanentIncompleteWord, vec![]));
            }
            _ => panic!("{event:?}"),
        }
        let opened = self.opened.as_ref().expect("an open file");
        assert_eq!(self.pack.files[0].as_ref(), Some(&opened.file), "{event:?}");
    }

    /// What `files` says that a write would send.
    fn sent(&self) -> Option<Vec<u64>> {
        let answer = answer_walk_event(&mut self.opened.clone(), &[TO_WRITE])?;
        Some(answer[..2].to_vec())
    }

    fn open(&mut self, event: &[u64]) {
        let &[_, width, output, double, sequence, check, block_size, record_length, low, high] = event else {
            panic!("{event:?}");
        };
        self.pack.fresh(MOST_BUFFERS, width, [1, 0, 0, 0, 0]).expect("a fresh start");
        let flags = output * OUTPUT + double * DOUBLE + sequence * SEQUENCE + check * CHECK;
        let opening = Opening { file: 0, channel: 0, unit: 0, flags, block_size, record_length };
        self.pack.open(&opening).expect("an open");
        let buffers = &mut self.pack.files[0].as_mut().expect("an open file").buffers;
        assert_eq!(buffers.len(), 1 + double as usize);
        *buffers = [low as usize, high as usize][..buffers.len()].to_vec();
    }

    fn ask(&mut self, operation: u64) {
        assert_eq!(self.pack.ask(0, operation, 0), Ok(Some(0)));
    }

    fn report(&mut self, outcome: u64) -> (Booked, Vec<u64>) {
        let reported = self.pack.report(0, 0, outcome, &[]).expect("a report");
        (reported.result, reported.block.to_vec())
    }

    /// A good read of a block, or a permanent error that brings it, of which the errors and the fields are what
    /// is asked for.
    fn deliver(&mut self, event: &[u64]) {
        let &[_, count, error, read_error, ref fields @ ..] = event else {
            panic!("{event:?}");
        };
        let found = Fields::of(fields.try_into().expect("fields"));
        let mut words = self.new_words(count);
        self.make_sum(&mut words, found.sum);
        let file = self.pack.files[0].as_ref().expect("an open file");
        if file.chosen.e() == 1 {
            words.push(found.sum_read << HALF_BITS | (self.last_word & 7) << 15 | found.number_read);
        }
        let (outcome, result) = self.end_of_read(read_error);
        let reported = self.pack.report(0, 0, outcome, &words).expect("a report");
        assert_eq!((reported.result, u64::from(reported.check_error)), (result, error));
        assert_eq!(reported.found, Some(found));
    }

    /// Brings a read so far that the next report ends it with this error, and says which it is.
    fn end_of_read(&mut self, read_error: u64) -> (u64, Booked) {
        match read_error {
            0 => (GOOD, Booked::Good),
            4 => {
                for _ in 0..100 {
                    let (result, shown) = self.report(REDUNDANCY);
                    assert!(matches!(result, Booked::Repeated | Booked::BackspaceThree) && shown.is_empty());
                }
                (REDUNDANCY, Booked::PermanentRedundancy)
            }
            _ => {
                assert_eq!(self.report(INCOMPLETE), (Booked::Repeated, vec![]));
                (INCOMPLETE, Booked::PermanentIncompleteWord)
            }
        }
    }

    /// Makes the last word such that the folded sum is the one that is asked for, and still like no other.
    /// A folded sum is what the plain sum is modulo 2^18 - 1.
    fn make_sum(&mut self, words: &mut [u64], sum: u64) {
        let modulus = ones(HALF_BITS);
        let (last, others) = words.split_last_mut().expect("a word");
        let far = (1 << 34) / modulus * modulus + self.last_word * modulus;
        *last = far + (sum + modulus - fold(logical_sum(others)) % modulus) % modulus;
        assert_eq!(fold(logical_sum(words)), sum);
    }

    fn get(&mut self, answer: &[u64]) {
        let nothing = Judged::default();
        let (number, words, judged) = match self.pack.get(0).expect("a get") {
            Got::Record(words) => (0, words.to_vec(), nothing),
            Got::NothingYet => (1, vec![], nothing),
            Got::End => (2, vec![], nothing),
            Got::Error(judged) => (3, vec![], judged),
            Got::Leftover(words) => (4, words.to_vec(), nothing),
        };
        assert_eq!((number, u64::from(judged.error)), (answer[0], answer[3]));
        assert_eq!(judged.fields.in_order(), answer[4..8]);
        assert_eq!(words, self.words_at(answer[1], answer[2]));
    }

    fn put(&mut self, answer: &[u64]) {
        let count = self.pack.files[0].as_ref().expect("an open file").record_length as u64;
        let words = self.new_words(count);
        self.pack.put(0, &words).expect("a put");
        assert_eq!(words, self.words_at(answer[0], count));
    }

    fn write(&mut self, sent: &[u64]) {
        let expected = self.words_at(sent[0], sent[1]).to_vec();
        self.ask(ASK_WRITE);
        self.writes += 1;
        if self.writes % 2 == 0 {
            assert_eq!(self.report(GOOD), (Booked::Good, expected));
        } else {
            assert_eq!(self.report(END_OF_MEDIUM), (Booked::EndOfMedium, expected));
        }
    }

    fn words_at(&self, start: u64, count: u64) -> &[u64] {
        &self.pack.area[start as usize..][..count as usize]
    }
}

#[test]
fn a_pack_walks_the_same_way() {
    let mut walker = Walker::new();
    for event in file_walks() {
        walker.play(&event);
    }
    assert!(walker.writes > 100);
}
