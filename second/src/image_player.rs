//! The subcommands `image`: images of states as the simulator's calls have them (document 02, M-103), judged and
//! played from.

use crate::frame::answer_line;
use crate::image::{image_of, is_good, pack_of_image, state_of_image, Fault, IMAGE_BYTES};
use crate::pack::Pack;
use crate::session::new_pack;
use crate::text::{byte_lines, numbers_of};

/// "Every frame call refuses 16, changing nothing, exactly if that area is not the image of a sound state".
pub const BAD_IMAGE: &str = "16";
const GOOD_IMAGE: &str = "good";

/// FNV-1a of 64 bits.
const FNV_OFFSET: u64 = 14_695_981_039_346_656_037;
const FNV_PRIME: u64 = 1_099_511_628_211;

/// The pack that an image stands for; that before the first fresh start if none is given.
pub fn begin(image: Option<&[u8]>) -> Result<Pack, Fault> {
    image.map_or(Ok(new_pack()), pack_of_image)
}

/// The image after the lines of a session.
pub fn image_after(mut pack: Pack, session: &[u8]) -> Vec<u8> {
    for line in byte_lines(session) {
        answer_line(&mut pack, line);
    }
    image_of(&pack)
}

/// For each line of a session its answer, a blank, and the hash of the image after it.
pub fn trace(mut pack: Pack, session: &[u8]) -> Vec<u8> {
    let mut told = Vec::new();
    for line in byte_lines(session) {
        told.extend(answer_line(&mut pack, line));
        told.extend(format!(" {:016X}\n", fnv(&image_of(&pack))).as_bytes());
    }
    told
}

/// For each line of changes, pairs of a place and a value, whether the image with these bytes changed is good. An
/// empty line is the image as it is.
pub fn judge_changes(image: &[u8], changes: &str) -> Result<String, String> {
    let mut changed = image.to_vec();
    let mut told = String::new();
    for (number, line) in (1..).zip(changes.lines()) {
        let pairs =
            pairs_of(line, image.len()).ok_or(format!("line {number} is no list of places and values"))?;
        for &(place, value) in &pairs {
            changed[place] = value;
        }
        told += if is_good(&changed) { GOOD_IMAGE } else { BAD_IMAGE };
        told.push('\n');
        for &(place, _) in &pairs {
            changed[place] = image[place];
        }
    }
    Ok(told)
}

/// Places and values of a line, places inside the image.
fn pairs_of(line: &str, length: usize) -> Option<Vec<(usize, u8)>> {
    if line.is_empty() {
        return Some(Vec::new());
    }
    let numbers = numbers_of(line)?;
    let pairs = numbers.chunks(2).map(|pair| {
        let place = usize::try_from(pair[0]).ok().filter(|&place| place < length)?;
        Some((place, u8::try_from(*pair.get(1)?).ok()?))
    });
    pairs.collect()
}

/// What is said of an image: that it is good, or 16 and why.
pub fn say(image: &[u8]) -> String {
    match state_of_image(image) {
        Ok(_) => GOOD_IMAGE.to_string(),
        Err(Fault::Length(length)) => format!("{BAD_IMAGE}: {length} bytes and not {IMAGE_BYTES}"),
        Err(Fault::Byte(place)) => format!("{BAD_IMAGE}: byte {place} can not be {}", image[place]),
        Err(Fault::Unsound(clauses)) => {
            let names: Vec<String> = clauses.iter().map(|clause| format!("{clause:?}")).collect();
            format!("{BAD_IMAGE}: unsound: {}", names.join(" "))
        }
    }
}

/// FNV-1a over the bytes.
pub fn fnv(bytes: &[u8]) -> u64 {
    bytes.iter().fold(FNV_OFFSET, |hash, &byte| (hash ^ u64::from(byte)).wrapping_mul(FNV_PRIME))
}

#[cfg(test)]
mod tests {
    use super::*;
    use crate::image::AREA_PLACE;

    const SESSION: &[u8] = b"0001000400010000000000000000\n010000000000020001\n\n03000000\n0B";

    #[test]
    fn the_hash_is_fnv_1a() {
        assert_eq!(fnv(b""), 0xCBF2_9CE4_8422_2325);
        assert_eq!(fnv(b"a"), 0xAF63_DC4C_8601_EC8C);
        assert_eq!(fnv(b"foobar"), 0x8594_4171_F739_67E8);
    }

    /// A trace in two parts is that in one, with the image after the first part between them.
    #[test]
    fn a_trace_goes_on_from_an_image() {
        let whole = trace(new_pack(), SESSION);
        let answers: Vec<&[u8]> =
            byte_lines(&whole).into_iter().map(|line| &line[..line.len() - 17]).collect();
        assert_eq!(answers, [&b"00"[..], b"00", b"01", b"0000", b"12"]);
        for cut in [0, 29, 48, 49, 58] {
            let image = image_after(new_pack(), &SESSION[..cut]);
            let rest = trace(begin(Some(&image)).expect("a good image"), &SESSION[cut..]);
            assert!(whole.ends_with(&rest), "{cut}");
            let lines = byte_lines(&whole);
            let hash = format!("{:016X}", fnv(&image));
            let before = lines.len() - byte_lines(&rest).len();
            assert!(before == 0 || lines[before - 1].ends_with(hash.as_bytes()), "{cut}");
        }
    }

    #[test]
    fn changes_are_judged_from_the_image_as_it_is() {
        let image = image_after(new_pack(), SESSION);
        let changes = format!("\n4 9\n4 10\n4 9 5 9\n4 9 5 10\n\n{AREA_PLACE} 255\n0 2 0 1\n");
        let told = "good\ngood\n16\ngood\n16\ngood\ngood\ngood\n";
        assert_eq!(judge_changes(&image, &changes), Ok(told.to_string()));
        for wrong in ["4", "4 256", "34483 0", "4 x", "4 9 5", "-1 0"] {
            assert_eq!(
                judge_changes(&image, wrong),
                Err("line 1 is no list of places and values".to_string())
            );
        }
    }

    #[test]
    fn what_is_said_of_images() {
        let mut image = image_after(new_pack(), SESSION);
        assert_eq!(say(&image), "good");
        image[4] = 10;
        image[5] = 10;
        assert_eq!(say(&image), "16: unsound: ScanMarks PriorityMarks");
        image[1] = 2;
        assert_eq!(say(&image), "16: byte 1 can not be 2");
        assert_eq!(say(&image[1..]), "16: 34482 bytes and not 34483");
    }

    /// An image can say m and W that the program's area is too short for: such a state is sound, and the calls that
    /// judge the area are refused 1.
    #[test]
    fn the_area_can_be_short() {
        let session = b"0020008000010000000000000000\n010000000000020001\n03000000\n";
        let mut image = image_after(new_pack(), session);
        let report =
            b"040000000000000005\n0500\n0800\n09\n0A\n0200\n0600\n0700\n0C\n0001000400010000000000000000\n";
        let answers = |image: &[u8]| {
            let told = trace(begin(Some(image)).expect("a good image"), report);
            let lines = byte_lines(&told).into_iter();
            lines
                .map(|line| String::from_utf8_lossy(&line[..line.len() - 17]).into_owned())
                .collect::<Vec<String>>()
        };
        let found = "000100000000050001000000000000FF";
        let right = [found, "00000000000005", "00", "00", "00", "00", "05", "05", "00FFFFFF", "00"];
        assert_eq!(answers(&image), right);
        image[2] = 129;
        let short = ["01", "01", "09", "00", "00", "08", "01", "01", "00FFFFFF", "00"];
        assert_eq!(answers(&image), short);
    }
}
