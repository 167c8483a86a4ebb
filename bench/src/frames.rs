//! The misses of least-recently-used replacement with every number of frames.

/// Looks at the entries one after the other up to the segment and counts each: its place, where the list has it, and the count.
fn walk(list: &[u16], segment: u16) -> (Option<usize>, u64) {
    let mut looked = 0;
    for (place, &other) in list.iter().enumerate() {
        looked += 1;
        if other == segment {
            return (Some(place), looked);
        }
    }
    (None, looked)
}

/// The misses with 1, 2, .., segs frames, from stack distances in one pass over the references. Gives the entries looked at.
pub fn lru(segs: usize, refs: &[u16], out: &mut [u64]) -> u64 {
    let mut recent = [0; 256];
    let mut length = 0;
    // At each place of the list how many touches were found there; first touches in the last.
    let mut found = [0; 257];
    let mut looked = 0;
    for &segment in refs {
        let (place, entries) = walk(&recent[..length], segment);
        found[place.unwrap_or(256)] += 1;
        looked += entries;
        if place.is_none() {
            recent[length] = segment;
            length += 1;
        }
        recent[..=place.unwrap_or(length - 1)].rotate_right(1);
    }
    let mut misses = found[256];
    for frames in (0..segs).rev() {
        out[frames] = misses;
        misses += found[frames];
    }
    looked
}

/// The same misses by simulating one memory for each number of frames in turn. Gives 0.
pub fn lru_plain(segs: usize, refs: &[u16], out: &mut [u64]) -> u64 {
    for frames in 1..=segs {
        let mut memory = [0; 256];
        let mut held = 0;
        let mut misses = 0;
        for &segment in refs {
            let place = memory[..held].iter().position(|&other| other == segment);
            if place.is_none() {
                misses += 1;
                held = frames.min(held + 1);
                memory[held - 1] = segment;
            }
            memory[..=place.unwrap_or(held - 1)].rotate_right(1);
        }
        out[frames - 1] = misses;
    }
    0
}
