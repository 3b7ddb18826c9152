//! The header of a plate file, looked at for messages. Whether a file is a plate file is decided by the proved reader.

use livukoe::BYTE_GREATEST;

/// The numbers of a header and where the pixels begin.
#[derive(Debug, PartialEq)]
pub struct Header {
    pub width: u64,
    pub height: u64,
    pub greatest: u64,
    pub raster: usize,
}

impl Header {
    pub fn pixels(&self) -> u64 {
        self.width * self.height
    }

    /// How many bytes a pixel has.
    pub fn depth(&self) -> usize {
        if self.greatest <= u64::from(BYTE_GREATEST) {
            1
        } else {
            2
        }
    }

    /// The greys of the pixels that are there in the file.
    pub fn greys<'a>(&self, file: &'a [u8]) -> impl Iterator<Item = u64> + 'a {
        let pixels = file[self.raster..].chunks_exact(self.depth());
        pixels.map(|bytes| {
            bytes
                .iter()
                .fold(0, |grey, &byte| 256 * grey + u64::from(byte))
        })
    }
}

/// Where a header goes wrong, and what should be there.
#[derive(Debug, PartialEq)]
pub struct Stop {
    pub at: usize,
    pub wanted: String,
}

/// The header of a file that begins with P5.
pub fn scan(file: &[u8]) -> Result<Header, Stop> {
    let mut cursor = Cursor { file, at: 2 };
    let width = cursor.gap_and_number("the width")?;
    let height = cursor.gap_and_number("the height")?;
    let greatest = cursor.gap_and_number("the greatest grey")?;
    if !cursor.is_at(is_blank) {
        return Err(cursor.stop("a blank ahead of the pixels"));
    }
    Ok(Header {
        width,
        height,
        greatest,
        raster: cursor.at + 1,
    })
}

struct Cursor<'a> {
    file: &'a [u8],
    at: usize,
}

impl Cursor<'_> {
    fn gap_and_number(&mut self, name: &str) -> Result<u64, Stop> {
        if !self.is_at(is_blank) {
            return Err(self.stop(&format!("a blank ahead of {name}")));
        }
        while self.is_at(|byte| is_blank(byte) || byte == b'#') {
            self.blank_or_comment()?;
        }
        let start = self.at;
        while self.is_at(|byte| byte.is_ascii_digit()) && self.at < start + 5 {
            self.at += 1;
        }
        if self.at == start {
            return Err(self.stop(&format!("a digit of {name}")));
        }
        if self.is_at(|byte| byte.is_ascii_digit()) {
            return Err(self.stop(&format!(
                "the end of {name}, which has at most five digits,"
            )));
        }
        let digits = self.file[start..self.at].iter();
        Ok(digits.fold(0, |number, digit| 10 * number + u64::from(digit - b'0')))
    }

    fn blank_or_comment(&mut self) -> Result<(), Stop> {
        if self.is_at(|byte| byte == b'#') {
            let rest = &self.file[self.at..];
            match rest.iter().position(|&byte| byte == b'\r' || byte == b'\n') {
                Some(end) => self.at += end,
                None => {
                    self.at = self.file.len();
                    return Err(self.stop("the end of a comment"));
                }
            }
        }
        self.at += 1;
        Ok(())
    }

    fn is_at(&self, kind: impl FnOnce(u8) -> bool) -> bool {
        self.file.get(self.at).is_some_and(|&byte| kind(byte))
    }

    fn stop(&self, wanted: &str) -> Stop {
        Stop {
            at: self.at,
            wanted: wanted.to_owned(),
        }
    }
}

fn is_blank(byte: u8) -> bool {
    matches!(byte, b' ' | b'\t' | b'\r' | b'\n')
}

#[cfg(test)]
mod tests {
    use super::*;

    #[test]
    fn whole_headers() {
        for (file, greatest, raster, greys) in [
            (&b"P5 4 3 255 "[..], 255, 11, &[][..]),
            (b"P5\n# a\r#b\n4\t\t003 255\n\x01\x02", 255, 21, &[1, 2]),
            (b"P5 4 3 65535\n\x01\x02\x03", 65_535, 13, &[258]),
        ] {
            let header = scan(file).expect("a header");
            assert_eq!((header.width, header.height), (4, 3));
            assert_eq!((header.greatest, header.raster), (greatest, raster));
            assert_eq!(header.greys(file).collect::<Vec<u64>>(), greys);
        }
    }

    #[test]
    fn where_headers_stop() {
        for (file, at, wanted) in [
            (&b"P5"[..], 2, "a blank ahead of the width"),
            (b"P54 3 255\n", 2, "a blank ahead of the width"),
            (b"P5 4 x 255\n", 5, "a digit of the height"),
            (b"P5 4 3", 6, "a blank ahead of the greatest grey"),
            (b"P5 4 3 255", 10, "a blank ahead of the pixels"),
            (b"P5 4 #3 255", 11, "the end of a comment"),
            (
                b"P5 123456 3 255",
                8,
                "the end of the width, which has at most five digits,",
            ),
        ] {
            let wanted = wanted.to_owned();
            assert_eq!(scan(file), Err(Stop { at, wanted }));
        }
    }
}
