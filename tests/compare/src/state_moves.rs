//! The last finished moves of a state handed in: right ones, and one that is wrong.

use inputs::random::Random;
use model::{State, Train};

/// Puts a train at a post of its way, with the move that brought it there.
pub fn bring(train: &mut Train, post: u8) {
    train.at = post;
    train.last = train.reached_by();
}

/// Gives each train the last move that it must have.
pub fn give(state: &mut State) {
    let trains = state.present().len();
    for train in &mut state.train[..trains] {
        train.last = train.reached_by();
    }
}

/// Any last move, for a place that is not read.
pub fn any(random: &mut Random) -> Option<(u8, u8)> {
    let far = (random.byte(), random.byte());
    let near = (random.between(0, 8), random.between(0, 8));
    random.pick(&[None, Some(near), Some(far)])
}

/// Another last move for one train of a valid state. It may be the same by chance.
pub fn altered(mut state: State, random: &mut Random) -> State {
    let posts = state.posts;
    let train = &mut state.train[random.below(usize::from(state.trains))];
    train.last = wrong(train, posts, random);
    state
}

/// None, or a move that is wrong in a post, or another one of the train's way.
fn wrong(train: &Train, posts: u8, random: &mut Random) -> Option<(u8, u8)> {
    let at = train.at;
    let (from, to) = train.reached_by().unwrap_or((at, at));
    let far = random.byte();
    let off = random.pick(&[posts, 8, 255, far]);
    let [some, other] = [(); 2].map(|()| random.between(0, posts - 1));
    match random.below(8) {
        0 => None,
        1 => Some((to, from)),
        2 => Some((at, train.next().unwrap_or(at))),
        3 => Some((beside(from, to), from)),
        4 => Some((random.altered(from), to)),
        5 => Some((from, random.altered(to))),
        6 => random.pick(&[Some((off, to)), Some((from, off)), Some((off, off))]),
        _ => Some((some, other)),
    }
}

/// The post on the other side of this one.
fn beside(post: u8, other: u8) -> u8 {
    if other > post {
        post.wrapping_sub(1)
    } else {
        post.wrapping_add(1)
    }
}
