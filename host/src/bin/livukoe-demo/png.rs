//! A grey PNG, whose rows are stored as they are: no compression, so no dependency.

use livukoe::Plate;

const SIGNATURE: [u8; 8] = [137, b'P', b'N', b'G', 13, 10, 26, 10];

/// The most bytes of a stored block of deflate.
const BLOCK: usize = 65_535;

/// The bytes of a PNG file that shows a plate with the greatest grey 255.
pub fn encoded(plate: &Plate) -> Vec<u8> {
    let mut header = Vec::new();
    header.extend(plate.width().to_be_bytes());
    header.extend(plate.height().to_be_bytes());
    header.extend([8, 0, 0, 0, 0]); // 8 bits, grey, deflate, filters by row, not interlaced
    let mut rows = Vec::new();
    for row in plate.greys().chunks(plate.width() as usize) {
        rows.push(0); // no filter
        rows.extend(row.iter().map(|&grey| grey as u8));
    }
    let mut file = SIGNATURE.to_vec();
    push_chunk(&mut file, b"IHDR", &header);
    push_chunk(&mut file, b"IDAT", &stored(&rows));
    push_chunk(&mut file, b"IEND", &[]);
    file
}

fn push_chunk(file: &mut Vec<u8>, kind: &[u8; 4], data: &[u8]) {
    file.extend((data.len() as u32).to_be_bytes());
    let start = file.len();
    file.extend(kind);
    file.extend(data);
    let sum = crc32(&file[start..]);
    file.extend(sum.to_be_bytes());
}

/// A zlib stream of stored blocks.
fn stored(data: &[u8]) -> Vec<u8> {
    let mut stream = vec![0x78, 0x01];
    let blocks = data.chunks(BLOCK).count();
    for (number, block) in data.chunks(BLOCK).enumerate() {
        let length = block.len() as u16;
        stream.push(u8::from(number + 1 == blocks)); // is it the last?
        stream.extend(length.to_le_bytes());
        stream.extend((!length).to_le_bytes());
        stream.extend(block);
    }
    stream.extend(adler32(data).to_be_bytes());
    stream
}

fn crc32(data: &[u8]) -> u32 {
    let sum = data.iter().fold(u32::MAX, |sum, &byte| {
        (0..8).fold(sum ^ u32::from(byte), |sum, _| {
            (sum >> 1) ^ (0xEDB8_8320 * (sum & 1))
        })
    });
    !sum
}

fn adler32(data: &[u8]) -> u32 {
    const MODULUS: u32 = 65_521;
    let (a, b) = data.iter().fold((1, 0), |(a, b), &byte| {
        let a = (a + u32::from(byte)) % MODULUS;
        (a, (b + a) % MODULUS)
    });
    b << 16 | a
}
