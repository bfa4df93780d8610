//! Drawing calls while they are played: mostly events of the menu, with others among them.

use super::Plan;
use crate::case::{Call, Case, Player, Said};
use crate::counts::Counts;
use crate::random::Random;
use crate::second::Event;

/// Places of menus that are more than any menu needs, or are just not.
const MANY_PLACES: [u64; 6] = [300, 65_535, 65_536, 65_537, 1 << 32, u64::MAX];

/// Ceilings that are refused.
const REFUSED_CEILINGS: [u64; 6] = [0, 129, 130, 65_536, 1 << 32, u64::MAX];

/// Draws calls into the case and has them played. A call is in the case before it is played.
pub fn draw(
    random: &mut Random,
    plan: &Plan,
    case: &mut Case,
    player: &mut Player,
    counts: &mut Counts,
) {
    let mut caller = Caller {
        random,
        plan,
        case,
        player,
        counts,
        last: None,
    };
    caller.draw();
}

struct Caller<'a> {
    random: &'a mut Random,
    plan: &'a Plan,
    case: &'a mut Case,
    player: &'a mut Player,
    counts: &'a mut Counts,
    /// The event that was offered last.
    last: Option<Event>,
}

impl Caller<'_> {
    fn draw(&mut self) {
        if self.random.percent(4) {
            self.some_calls(3);
        }
        let ceiling = self.ceiling();
        let opened = self.make(Call::Open(ceiling));
        self.often();
        // There is little to see where nothing is open.
        let calls = match opened {
            true => self
                .random
                .within(self.plan.most_calls / 3, self.plan.most_calls),
            false => self.random.within(1, 4),
        };
        self.some_calls(calls);
    }

    /// Offers one event many times, if the plan wants that. These offers say little, so they are not counted.
    fn often(&mut self) {
        let Some((event, times)) = self.plan.often else {
            return;
        };
        for _ in 0..times {
            let call = Call::Offer(event);
            self.case.calls.push(call);
            self.player.make(&call);
        }
    }

    fn some_calls(&mut self, count: usize) {
        for _ in 0..count {
            let call = self.call();
            self.make(call);
        }
    }

    /// Makes a call, and then tells. Answers whether the call was not refused.
    fn make(&mut self, call: Call) -> bool {
        if let Call::Offer(event) = call {
            self.last = Some(event);
        }
        let said = self.one(call);
        self.one(Call::Tell);
        matches!(said, Said::Answer(Ok(_)))
    }

    fn one(&mut self, call: Call) -> Said {
        self.case.calls.push(call);
        let said = self.player.make(&call);
        self.counts.call(&call, &said);
        said
    }

    fn call(&mut self) -> Call {
        match self.random.below(100) {
            0..64 => Call::Offer(self.event_of_menu()),
            64..74 => Call::Offer(self.event_in_form()),
            74..78 => Call::Offer(self.event_out_of_form()),
            78..84 => Call::Offer(self.last_event()),
            84..97 => Call::Menu(self.places()),
            _ => Call::Open(self.ceiling()),
        }
    }

    fn event_of_menu(&mut self) -> Event {
        let menu = self.player.whole_menu();
        match menu.is_empty() {
            true => self.event_in_form(),
            false => self.random.pick(&menu),
        }
    }

    fn last_event(&mut self) -> Event {
        match self.last {
            Some(event) => event,
            None => self.event_in_form(),
        }
    }

    fn event_in_form(&mut self) -> Event {
        let count = self.random.below(3) as u16;
        Event {
            label: match self.random.percent(90) {
                true => self.random.pick(&self.plan.labels),
                false => self.random.pick(&[0, 1, 254, 255]),
            },
            count,
            first: if count > 0 { self.value() } else { 0 },
            second: if count > 1 { self.value() } else { 0 },
        }
    }

    fn value(&mut self) -> u16 {
        match self.random.percent(80) {
            true => self.random.pick(&self.plan.values),
            false => self.random.pick(&[0, 1, 16, 17, 65_534, 65_535]),
        }
    }

    /// An event in form, but for one or two fields.
    fn event_out_of_form(&mut self) -> Event {
        let mut event = self.event_in_form();
        for _ in 0..self.random.within(1, 2) {
            match self.random.below(4) {
                0 => event.label = self.random.pick(&[256, 257, 512, 65_535]),
                1 => event.count = self.random.pick(&[3, 4, 256, 258, 65_535]),
                2 => {
                    event.count = 0;
                    event.first = self.random.pick(&[1, 2, 65_535]);
                }
                _ => {
                    event.count = self.random.below(2) as u16;
                    event.second = self.random.pick(&[1, 2, 65_535]);
                }
            }
        }
        event
    }

    /// So many places as the menu needs, one more, one less, few or plenty.
    fn places(&mut self) -> u64 {
        let needed = self.player.whole_menu().len() as u64;
        match self.random.below(20) {
            0..6 => needed,
            6..10 => needed.saturating_sub(1),
            10..12 => needed + 1,
            12 => 0,
            13 => 1,
            14 => 2,
            15 => self.random.pick(&MANY_PLACES),
            _ => needed + 10,
        }
    }

    fn ceiling(&mut self) -> u64 {
        match self.random.below(30) {
            0 => self.random.pick(&REFUSED_CEILINGS),
            1 | 2 => self.random.within(1, 128) as u64,
            _ => self.random.pick(&self.plan.ceilings),
        }
    }
}
