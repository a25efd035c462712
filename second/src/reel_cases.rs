//! The subcommand `reel-cases`: random tape images for `reel list`, `words` and `octal`, and texts for
//! `reel make`, good and wrong in every way, written to files; and sizes, texts of records and images for `reel write`
//! and `reel read`.

mod images;
mod jobs;
mod texts;

use std::path::Path;

use crate::folder::write_file;
use crate::random::Random;

/// Writes `N.tap` and `N.text` into a folder, and `N.options`, `N.records` and `N.posted` for the pack, N from 1 to
/// `count`.
pub fn write_reel_cases(folder: &Path, seed: u64, count: u64) -> Result<(), String> {
    for number in 1..=count {
        write_file(folder, &format!("{number}.tap"), &image_case(seed, number))?;
        write_file(folder, &format!("{number}.text"), &text_case(seed, number))?;
        let job = job_case(seed, number);
        write_file(folder, &format!("{number}.options"), jobs::options_of(job.sizes).as_bytes())?;
        write_file(folder, &format!("{number}.records"), &job.text)?;
        write_file(folder, &format!("{number}.posted"), &job.image)?;
    }
    Ok(())
}

/// An image of a seed. The first cases are one small image cut at each of its places.
pub fn image_case(seed: u64, number: u64) -> Vec<u8> {
    let mut small = images::small();
    if number <= small.len() as u64 + 1 {
        small.truncate(number as usize - 1);
        return small;
    }
    images::draw(&mut Random::of(seed, number))
}

/// A text of a seed.
pub fn text_case(seed: u64, number: u64) -> Vec<u8> {
    // Another case than that of the image: the two have nothing to do with one another.
    texts::draw(&mut Random::of(seed, u64::MAX - number))
}

/// Sizes, a text of records and an image of a seed.
fn job_case(seed: u64, number: u64) -> jobs::Job {
    // Cases of their own between those of the images and those of the texts.
    jobs::draw(&mut Random::of(seed, u64::MAX / 2 + number), number)
}

#[cfg(test)]
mod tests {
    use super::*;
    use crate::reel::{read_image, Record};
    use crate::reel_job::{read_reel, write_reel};
    use crate::reel_make::{make_image, Parity};
    use std::collections::{BTreeMap, BTreeSet};

    const CASES: u64 = 3_000;

    fn images() -> impl Iterator<Item = Vec<u8>> {
        (1..=CASES).map(|number| image_case(1, number))
    }

    #[test]
    fn every_fault_of_an_image_is_met_often() {
        let mut met = BTreeMap::<u64, u64>::new();
        let (mut later, mut blocks, mut lengths) = (0, BTreeSet::new(), BTreeSet::new());
        for image in images() {
            let reel = read_image(&image);
            *met.entry(reel.fault.map_or(0, |fault| fault.number)).or_default() += 1;
            later += u64::from(reel.fault.is_some() && reel.records.len() > 1);
            for record in &reel.records {
                if let Record::Block(words) = record {
                    blocks.insert(words.len());
                }
            }
            if let Some(fault) = reel.fault {
                let length = image[fault.place..].first_chunk::<4>();
                lengths.extend(length.map(|length| u32::from_le_bytes(*length)));
            }
        }
        assert!(met.keys().copied().eq([0, 20, 21, 22, 23]), "{met:?}");
        assert!(met.values().all(|&count| count >= CASES / 20), "{met:?}");
        assert!(later >= CASES / 5, "{later}");
        assert!([1, 2, 1_023, 1_024].iter().all(|count| blocks.contains(count)), "{blocks:?}");
        for length in [1, 7, 6_143, 6_144, 6_145, 6_150, 0x8000_0006, 0xFFFF_FFFE, 0xFFFF_FFFF] {
            assert!(lengths.contains(&length), "{length}");
        }
    }

    /// Data bytes with each of the two bits that do not count, and images with right parity.
    #[test]
    fn ignored_bits_are_drawn() {
        let mut made_again = [0, 0];
        for image in images() {
            let reel = read_image(&image);
            let bytes = |parity| -> Vec<u8> {
                reel.records.iter().flat_map(|record| crate::reel_make::bytes_of(record, parity)).collect()
            };
            let right = [Parity::Odd, Parity::Even].map(bytes).contains(&image);
            if reel.fault.is_none() && image.len() > 100 {
                made_again[usize::from(right)] += 1;
            }
        }
        assert!(made_again.iter().all(|&count| count >= CASES / 60), "{made_again:?}");
    }

    #[test]
    fn the_small_image_is_cut_everywhere() {
        let small = images::small();
        let cut: Vec<usize> =
            (1..=small.len() as u64 + 1).map(|number| image_case(9, number).len()).collect();
        assert!(cut.into_iter().eq(0..=small.len()));
        assert_eq!(read_image(&small).fault, None);
    }

    #[test]
    fn every_refusal_of_a_text_is_met_often() {
        let mut met = BTreeMap::<String, u64>::new();
        let (mut longest, mut later) = (0, 0);
        for number in 1..=CASES {
            let text = text_case(1, number);
            let refusal = make_image(&text, Parity::Odd).refusal.unwrap_or_default();
            later += u64::from(!refusal.is_empty() && !refusal.contains("at line 1:"));
            let sort = refusal.split(" at line ").next().unwrap_or_default().to_string();
            *met.entry(sort).or_default() += 1;
            longest = longest.max(text.split(|&byte| byte == b'\n').map(<[u8]>::len).max().unwrap_or(0));
        }
        assert!(met.keys().eq(["", "refused 1", "refused 13", "refused 2"]), "{met:?}");
        assert!(met.values().all(|&count| count >= CASES / 20), "{met:?}");
        assert!(longest > 20_000 && later >= CASES / 5);
    }

    /// What a reader or a writer is told, without numbers.
    fn sorts_of(job: &jobs::Job) -> BTreeSet<String> {
        let written = write_reel(&job.text, job.sizes, Parity::Odd);
        let read = read_reel(&job.image, job.sizes);
        let lines = String::from_utf8(read.output).expect("text");
        let mut sorts = BTreeSet::new();
        for line in lines.lines().map(str::to_string).chain(written.said).chain(read.said) {
            let sort = match line.split(' ').collect::<Vec<&str>>()[..] {
                ["refused", number, "at", what, ..] => format!("refused {number} {what}"),
                ["refused", number, ..] => format!("refused {number}"),
                ["ERROR", _, _, _, _, "reel:", "sequence", ..] => "both".to_string(),
                ["ERROR", _, _, _, _, "reel:", kind, ..] => kind.to_string(),
                [first, ..] => first.to_string(),
                [] => String::new(),
            };
            if sort.as_bytes()[0].is_ascii_alphabetic() {
                sorts.insert(sort);
            }
        }
        sorts
    }

    /// The cases that are run by default meet all that can be told, and each of it again and again in many.
    #[test]
    fn whatever_the_pack_says_of_a_reel_is_met() {
        let told = [
            "LEFTOVER",
            "MARK",
            "REFUSED",
            "both",
            "check",
            "reel:",
            "refused 1 line",
            "refused 13 line",
            "refused 13:",
            "refused 2 line",
            "refused 20 byte",
            "refused 21 byte",
            "refused 22 byte",
            "refused 23 byte",
            "sequence.",
        ];
        let few: BTreeSet<String> = (1..=24).flat_map(|number| sorts_of(&job_case(1, number))).collect();
        let mut met = BTreeMap::<String, u64>::new();
        for sort in (1..=600).flat_map(|number| sorts_of(&job_case(2, number))) {
            *met.entry(sort).or_default() += 1;
        }
        assert!(met.keys().eq(told), "{met:?}");
        assert!(met.values().all(|&count| count >= 10), "{met:?}");
        assert!(few.iter().eq(told), "{few:?}");
    }

    #[test]
    fn cases_follow_the_seed() {
        assert_eq!((image_case(3, 70), text_case(3, 70)), (image_case(3, 70), text_case(3, 70)));
        assert!((60..90).any(|number| image_case(3, number) != image_case(4, number)));
        assert!((60..90).any(|number| text_case(3, number) != text_case(4, number)));
    }
}
