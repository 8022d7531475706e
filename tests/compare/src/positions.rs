//! Positions of posts: right ones, near together and far apart, and such as 27 is for.

use inputs::random::Random;
use inputs::sizes::METRES_MOST;

/// Right positions of so many posts. The posts past the first may all lie at the far end.
pub fn right(posts: u8, random: &mut Random) -> Vec<u32> {
    let farthest = random.pick(&[1, 40, 20_000, METRES_MOST / 7]);
    let mut positions = vec![0];
    let mut metres = 0;
    for _ in 1..posts {
        metres += 1 + random.below(farthest as usize) as u32;
        positions.push(metres);
    }
    if random.one_in(4) {
        for position in &mut positions[1..] {
            *position += METRES_MOST - metres;
        }
    }
    positions
}

/// Right positions made wrong: not from 0, not rising, too far, or with their low byte first.
pub fn wrong(mut positions: Vec<u32>, random: &mut Random) -> Vec<u32> {
    let last = positions.len() - 1;
    let at = 1 + random.below(last);
    match random.below(7) {
        0 => positions[0] = 1 + random.below(positions[1].max(2) as usize - 1) as u32,
        1 => positions[at] = positions[at - 1],
        2 => positions.swap(at - 1, at),
        3 => positions[last] = too_far(random),
        4 => positions[at] = too_far(random),
        5 => {
            for (more, position) in (1..).zip(&mut positions[at..]) {
                *position = METRES_MOST + more;
            }
        }
        _ => positions = positions.into_iter().map(u32::swap_bytes).collect(),
    }
    positions
}

/// Above the highest position, most often right above it.
fn too_far(random: &mut Random) -> u32 {
    let far = random.below(1 << 24) as u32;
    let high_byte = 1 << 24 | far;
    let next = METRES_MOST + 1;
    random.pick(&[next, next, next + far, high_byte, u32::MAX])
}

#[cfg(test)]
mod tests {
    use super::*;
    use crate::checks::are_right;

    #[test]
    fn right_positions_are_right_and_wrong_ones_are_wrong() {
        let random = &mut Random::new(9);
        for _ in 0..10_000 {
            let posts = random.between(2, 8);
            let right = right(posts, random);
            assert_eq!(right.len(), usize::from(posts));
            assert!(are_right(&right), "{right:?}");
            let wrong = wrong(right, random);
            assert_eq!(wrong.len(), usize::from(posts));
            // But for those that are the same with the low byte first.
            let turned: Vec<u32> = wrong.iter().map(|metres| metres.swap_bytes()).collect();
            assert!(!are_right(&wrong) || are_right(&turned), "{wrong:?}");
        }
    }
}
