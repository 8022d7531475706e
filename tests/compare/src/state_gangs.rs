//! The gangs of a state handed in: on sections that no train has, and one that is wrong.

use inputs::random::Random;
use inputs::sizes::LOCAL_RUNS;
use model::State;

/// Puts gangs on some of the sections that no train has, in half of the states, and gives any number of local runs,
/// often the last or the last but one.
pub fn give(state: &mut State, random: &mut Random) {
    let few = 1 + random.below(6);
    if random.one_in(2) {
        for section in free(state) {
            state.possessions[usize::from(section)] = random.one_in(few);
        }
    }
    let any = random.between(0, LOCAL_RUNS);
    state.given = random.pick(&[any, any, any, LOCAL_RUNS - 1, LOCAL_RUNS]);
}

/// The sections of the line that nobody holds.
fn free(state: &State) -> Vec<u8> {
    let is_free = |section: &u8| state.holders_of_section(*section) == 0;
    (0..state.posts - 1).filter(is_free).collect()
}

/// Any gangs where the line has no section.
pub fn fill_unread(state: &mut State, random: &mut Random) {
    for place in &mut state.possessions[usize::from(state.posts) - 1..] {
        *place = random.one_in(2);
    }
}

/// Too many local runs given, a gang on the section of a train, or one more or less anywhere. It may still be valid.
pub fn altered(mut state: State, random: &mut Random) -> State {
    let above = random.between(LOCAL_RUNS + 1, 255);
    let free = free(&state);
    let held: Vec<u8> = (0..state.posts - 1)
        .filter(|section| !free.contains(section) && !state.gang_holds(*section))
        .collect();
    match random.below(3) {
        0 => state.given = random.pick(&[LOCAL_RUNS + 1, above]),
        1 if !held.is_empty() => state.possessions[usize::from(random.pick(&held))] = true,
        _ => state.possessions[random.below(7)] ^= true,
    }
    state
}
