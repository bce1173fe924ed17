//! The reel: taking it apart into blocks, and putting blocks together into one.

/// A reel is at most this many bytes.
pub const LONGEST: usize = 65_536;

/// The big-endian 32-bit number at a byte of the reel.
fn number(reel: &[u8], at: usize) -> u64 {
    reel[at..at + 4].iter().fold(0, |sum, byte| sum * 256 + u64::from(*byte))
}

/// The blocks of a reel; nothing if it is not a reel.
pub fn read(reel: &[u8]) -> Option<Vec<&[u8]>> {
    let length = reel.len() as u64;
    if reel.len() < 8 || reel.len() > LONGEST {
        return None;
    }
    let k = number(reel, 0);
    if 4 * k + 8 > length {
        return None;
    }
    let offsets: Vec<u64> = (0..=k as usize).map(|i| number(reel, 4 + 4 * i)).collect();
    let rising = offsets.windows(2).all(|pair| pair[0] < pair[1]);
    if offsets[0] != 4 * k + 8 || offsets[k as usize] != length || !rising {
        return None;
    }
    let block = |pair: &[u64]| &reel[pair[0] as usize..pair[1] as usize];
    Some(offsets.windows(2).map(block).collect())
}

/// The length of a reel of `blocks` blocks that hold `bytes` bytes together.
pub fn length(blocks: usize, bytes: usize) -> usize {
    4 * blocks + 8 + bytes
}

/// The reel of these blocks.
pub fn write(blocks: &[Vec<u8>]) -> Vec<u8> {
    let mut reel = (blocks.len() as u32).to_be_bytes().to_vec();
    let mut offset = length(blocks.len(), 0);
    reel.extend((offset as u32).to_be_bytes());
    for block in blocks {
        offset += block.len();
        reel.extend((offset as u32).to_be_bytes());
    }
    for block in blocks {
        reel.extend(block);
    }
    reel
}
