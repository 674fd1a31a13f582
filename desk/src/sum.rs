//! The checksum of a file: CRC-64 by the polynomial of ECMA-182, as the xz format has it. It
//! tells any one bit that turned, and any change within 64 bits that follow each other.

const POLYNOMIAL: u64 = 0xc96c_5795_d787_0f42;

/// Of each byte what it adds, so many bytes before the end of a piece of eight.
const TABLES: [[u64; 256]; 8] = {
    let mut tables = [[0; 256]; 8];
    let mut byte = 0;
    while byte < 256 {
        let mut sum = byte as u64;
        let mut bit = 0;
        while bit < 8 {
            sum = (sum >> 1) ^ (POLYNOMIAL * (sum & 1));
            bit += 1;
        }
        tables[0][byte] = sum;
        byte += 1;
    }
    let mut behind = 1;
    while behind < 8 {
        let mut byte = 0;
        while byte < 256 {
            let before = tables[behind - 1][byte];
            tables[behind][byte] = (before >> 8) ^ tables[0][(before & 255) as usize];
            byte += 1;
        }
        behind += 1;
    }
    tables
};

pub fn of(bytes: &[u8]) -> u64 {
    let mut sum = !0;
    let mut pieces = bytes.chunks_exact(8);
    for piece in &mut pieces {
        let piece: [u8; 8] = piece.try_into().expect("eight bytes");
        let mixed = (sum ^ u64::from_le_bytes(piece)).to_le_bytes();
        sum = (0..8).fold(0, |sum, at| sum ^ TABLES[7 - at][usize::from(mixed[at])]);
    }
    for &byte in pieces.remainder() {
        sum = (sum >> 8) ^ TABLES[0][((sum ^ u64::from(byte)) & 255) as usize];
    }
    !sum
}

#[cfg(test)]
mod tests {
    /// The value that is published for these nine digits, and one for more than eight pieces.
    #[test]
    fn the_published_sum() {
        assert_eq!(super::of(b"123456789"), 0x995d_c9bb_df19_39fa);
        assert_eq!(super::of(b""), 0);
    }

    /// Piece by piece as byte by byte, at any length.
    #[test]
    fn pieces_are_as_bytes() {
        let bytes: Vec<u8> = (0..100_u32).map(|k| (k * k % 251) as u8).collect();
        for end in 0..bytes.len() {
            let mut sum = !0_u64;
            for byte in &bytes[..end] {
                sum ^= u64::from(*byte);
                for _ in 0..8 {
                    sum = (sum >> 1) ^ (super::POLYNOMIAL * (sum & 1));
                }
            }
            assert_eq!(super::of(&bytes[..end]), !sum);
        }
    }
}
