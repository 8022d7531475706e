//! What is wrong with the parts of a book, one fault for each number.

use crate::positions;
use inputs::books::Parts;
use inputs::random::Random;

pub type Fault = fn(&mut Parts, &mut Random);

/// In the order of the checks.
pub const FAULTS: [(&str, Fault); 7] = [
    ("book: posts out of range", posts_out),
    ("book: tracks out of range", tracks_out),
    ("book: siding off the line", siding_off),
    ("book: positions wrong", positions_wrong),
    ("book: trains out of range", trains_out),
    ("book: total differs", total_differs),
    ("book: off the line", off_the_line),
];

fn posts_out(parts: &mut Parts, random: &mut Random) {
    parts.posts = out_of(2, 8, random);
    if random.one_in(2) {
        // As many track counts, and positions, as the wrong number says.
        parts.tracks = vec![1; usize::from(parts.posts)];
        if let Some(positions) = &mut parts.positions {
            *positions = (0..u32::from(parts.posts)).collect();
        }
    }
}

fn tracks_out(parts: &mut Parts, random: &mut Random) {
    let at = random.below(parts.tracks.len());
    parts.tracks[at] = out_of(1, 4, random);
}

/// The sidings of at most seven posts, and a bit past them, often the first.
fn siding_off(parts: &mut Parts, random: &mut Random) {
    parts.posts = parts.posts.min(7);
    parts.tracks.truncate(7);
    if let Some(positions) = &mut parts.positions {
        positions.truncate(7);
    }
    let far = random.between(parts.posts, 7);
    let bit = 1 << random.pick(&[parts.posts, far]);
    parts.sidings = Some(parts.sidings.unwrap_or(0) | bit);
}

fn positions_wrong(parts: &mut Parts, random: &mut Random) {
    let right = positions::right(parts.posts, random);
    parts.positions = Some(positions::wrong(right, random));
}

fn trains_out(parts: &mut Parts, random: &mut Random) {
    parts.trains = out_of(1, 6, random);
    if random.one_in(2) {
        parts.routes = vec![[0, 1]; usize::from(parts.trains)];
    }
}

/// More or fewer routes than trains, and a length that fits the bytes.
fn total_differs(parts: &mut Parts, random: &mut Random) {
    if random.one_in(2) {
        parts.routes.pop();
    } else {
        parts.routes.push([0, 1]);
    }
}

fn off_the_line(parts: &mut Parts, random: &mut Random) {
    let at = random.below(parts.routes.len());
    let which = random.below(2);
    let far = random.byte();
    parts.routes[at][which] = random.pick(&[parts.posts, parts.posts + 1, 255, far]);
}

/// A byte outside of a range, most often right beside it.
fn out_of(low: u8, high: u8, random: &mut Random) -> u8 {
    let far = random.byte();
    let other = random.pick(&[low - 1, high + 1, 0, 255, far]);
    if (low..=high).contains(&other) {
        high + 1
    } else {
        other
    }
}
