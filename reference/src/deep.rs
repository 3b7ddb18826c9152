//! Files whose headers are four million bytes of comments, and of blanks:
//! what the program `test_pgm_deep` prints.

use crate::pgm::read_pgm;

/// The bytes of a file.
const SIZE: usize = 4_000_000;
/// Its end: the numbers and a pixel.
const END: &[u8] = b"1 1 255\na";

/// For each file the refusal, the width, the height and the output's grey as a letter.
pub fn deep_text() -> String {
    [b"#\n", b" \n"]
        .map(|filler| line(&file_of(filler)))
        .concat()
}

/// "P5", LF, then the filler over and over, then the end.
fn file_of(filler: &[u8]) -> Vec<u8> {
    let gap = filler.iter().copied().cycle();
    let start = b"P5\n".iter().copied().chain(gap);
    let mut file: Vec<u8> = start.take(SIZE - END.len()).collect();
    file.extend(END);
    file
}

fn line(file: &[u8]) -> String {
    let mut out = [u16::from(b'.')];
    let head = read_pgm(file, &mut out);
    let pixel = char::from_u32(out[0].into()).unwrap_or('?');
    format!("{} {} {} {pixel}\n", head.refusal, head.width, head.height)
}
