//! Drawing cases by random numbers: a file, sound or damaged, settings, and a run of calls, which is drawn while it is played.

mod calls;
mod damage;
mod settings;
mod sound;
mod worst;

use crate::case::{Case, Player};
use crate::counts::Counts;
use crate::draft::Draft;
use crate::random::Random;
use crate::second::Event;

/// A sound procedure, and what fits it.
struct Plan {
    draft: Draft,
    /// Type, first, count.
    ranges: Vec<[u16; 3]>,
    /// The guards that are asked.
    guards: Vec<u16>,
    /// The labels of its arrows.
    labels: Vec<u16>,
    /// Values of its types, and constants of its arrows.
    values: Vec<u16>,
    /// Ceilings that it is worth being opened with.
    ceilings: Vec<u64>,
    /// How many calls it can take before it takes too much time.
    most_calls: usize,
    /// An event that is offered so many times after the opening.
    often: Option<(Event, usize)>,
}

/// Ceilings at the bounds and at numbers that are met often.
const CEILINGS: [u64; 12] = [1, 2, 3, 4, 8, 16, 64, 127, 128, 128, 128, 128];

/// Draws a case into `case`, and answers the text that the second interpreter makes of it. What is in `case` is in order at any
/// moment, also if the second interpreter panics in the middle.
pub fn draw(random: &mut Random, case: &mut Case, counts: &mut Counts) -> Vec<u64> {
    let plan = match random.below(100) {
        0..25 => worst::draw(random),
        _ => sound::draw(random),
    };
    case.file = plan.draft.file();
    if random.percent(15) {
        damage::damage(random, &mut case.file);
    }
    case.host = match random.below(10) {
        // Only tallies look at how often an event was told.
        0..5 if plan.often.is_none() => 0,
        9 => random.number().max(1),
        _ => 1,
    };
    if random.percent(25) {
        // Above two bytes, so it is no kind of call but telling.
        let any = random.number().max(65_536);
        case.noise = random.pick(&[65_536, 65_537, 1 << 32, u64::MAX, any, any]);
        case.left_over = random.below(5);
    }
    case.ranges = settings::ranges(random, &plan);
    case.settings = settings::settings(random, &plan, case.host);
    let mut player = Player::new(case);
    counts.begin(&player, &case.file);
    calls::draw(random, &plan, case, &mut player, counts);
    player.text().to_vec()
}

/// A case of a reading alone: a damaged copy of a file.
pub fn damaged(random: &mut Random, file: &[u8]) -> Case {
    let mut file = file.to_vec();
    damage::damage(random, &mut file);
    Case {
        file,
        ..Case::default()
    }
}
