//! What an input is that is no plate file, by its first bytes.

/// First bytes, what begins with them, and what makes a plate file of it. The first that fits counts.
const FORMATS: [(&[u8], &str, &str); 17] = [
    (b"P1", "a plain PBM", "pgmtopgm"),
    (b"P2", "a plain PGM", "pgmtopgm"),
    (b"P3", "a plain PPM", "ppmtopgm"),
    (b"P4", "a raw PBM", "pgmtopgm"),
    (b"P6", "a raw PPM", "ppmtopgm"),
    (b"P7", "a PAM", "pamtopnm | ppmtopgm"),
    (b"\x89PNG", "a PNG", "pngtopnm | ppmtopgm"),
    (b"II*\0", "a TIFF", "tifftopnm -byrow | ppmtopgm"),
    (b"MM\0*", "a TIFF", "tifftopnm -byrow | ppmtopgm"),
    (b"\xff\xd8\xff", "a JPEG", "jpegtopnm | ppmtopgm"),
    (b"GIF8", "a GIF", "giftopnm | ppmtopgm"),
    (b"BM", "a BMP", "bmptopnm | ppmtopgm"),
    (b"\x1f\x8b", "compressed by gzip", "gunzip"),
    (
        b"\xef\xbb\xbfP5",
        "a raw PGM after a byte order mark",
        "tail -c +4",
    ),
    (b"\xef\xbb\xbf", "text with a byte order mark", ""),
    (b"\xff\xfe", "text with a byte order mark", ""),
    (b"\xfe\xff", "text with a byte order mark", ""),
];

/// What an input is that does not begin with P5, and the Netpbm command that makes a plate file of it.
pub fn no_plate_file(bytes: &[u8]) -> String {
    if bytes.is_empty() {
        return "the input is empty".to_owned();
    }
    match of(bytes) {
        Some((what, "")) => format!("the input is {what}, not a raw PGM (P5)"),
        Some((what, command)) => {
            format!("the input is {what}, not a raw PGM (P5); it becomes one by: {command}")
        }
        None => {
            let first: Vec<String> = bytes.iter().take(4).map(|b| format!("{b:02x}")).collect();
            format!(
                "the input does not begin with P5; its first bytes are {}",
                first.join(" ")
            )
        }
    }
}

/// What an input is that should be a record, where it is something else that is known.
pub fn no_record(bytes: &[u8]) -> Option<&'static str> {
    let blank = |byte: &u8| byte.is_ascii_whitespace();
    if bytes.starts_with(b"P5") && bytes.get(2).is_some_and(blank) {
        return Some("a raw PGM (P5)");
    }
    known(bytes)
}

/// What bytes are that begin as one of the formats does.
pub fn known(bytes: &[u8]) -> Option<&'static str> {
    of(bytes).map(|(what, _)| what)
}

fn of(bytes: &[u8]) -> Option<(&'static str, &'static str)> {
    let fits = FORMATS.iter().find(|(first, ..)| bytes.starts_with(first));
    fits.map(|(_, what, command)| (*what, *command))
}
