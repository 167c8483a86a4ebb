//! The working set at every window.

/// wsocc for every window from 1 to the number of steps, by the recursion. An entry not below segs is a step without a touch.
pub fn windows(segs: usize, steps: &[u16], out: &mut [u64]) {
    // How many reuses and end intervals there are of each length.
    let mut lengths = [0; 2_050];
    // The last step of each segment, 0 where it is untouched.
    let mut last = [0; 256];
    let mut touches = 0;
    for (step, &segment) in (1..).zip(steps) {
        if usize::from(segment) < segs {
            let before = std::mem::replace(&mut last[usize::from(segment)], step);
            lengths[step - before] += u64::from(before > 0);
            touches += 1;
        }
    }
    for before in last.into_iter().filter(|&before| before > 0) {
        lengths[steps.len() + 1 - before] += 1;
    }
    let mut value = touches;
    // Each reuse ends at a touch that is no first one, and each touched segment has an end interval: as many intervals as touches.
    let mut longer = touches;
    for (place, length) in out.iter_mut().zip(&lengths[1..=steps.len()]) {
        *place = value;
        longer -= length;
        value += longer;
    }
}
