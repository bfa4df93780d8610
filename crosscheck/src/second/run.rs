//! Runs: opening, offers and menus.

use super::rules::{Diagram, Offer, Rows};
use super::{Event, Fault, Host, Procedure, Ranges};

const HIGHEST_CEILING: usize = 128;

/// A run that was never opened, or the states that it holds of a diagram.
#[derive(Clone, Debug, Default)]
pub struct Run {
    opened: Option<Opened>,
}

#[derive(Clone, Debug)]
struct Opened {
    diagram: Diagram,
    ceiling: usize,
    held: Rows,
}

impl Run {
    /// A run that was never opened.
    pub fn new() -> Run {
        Run::default()
    }

    pub fn open(
        &mut self,
        procedure: &Procedure,
        ranges: &Ranges,
        ceiling: usize,
    ) -> Result<usize, Fault> {
        let diagram = Diagram::open(procedure, ranges)?;
        if !(1..=HIGHEST_CEILING).contains(&ceiling) {
            return Err(Fault::new(14, ceiling));
        }
        let held = Rows::from([diagram.beginning(diagram.root()).clone()]);
        self.opened = Some(Opened {
            diagram,
            ceiling,
            held,
        });
        Ok(1)
    }

    pub fn offer(&mut self, host: &mut Host, event: Event) -> Result<usize, Fault> {
        if let Some(field) = event.wrong_field() {
            return Err(Fault::new(15, field));
        }
        let opened = self.opened.as_mut().ok_or(Fault::new(16, 0))?;
        let next = opened.next_states(host, event)?;
        opened.held = next;
        // The host answered the guards as it was before the event, and hears of it only now.
        host.tell(event);
        Ok(opened.held.len())
    }

    /// The answer, and the events listed: all of the menu, or on a refusal its first `places`
    /// ones.
    pub fn menu(&self, host: &Host, places: usize) -> (Result<usize, Fault>, Vec<Event>) {
        let mut listed = Vec::new();
        for event in self.candidates(host) {
            if listed.len() == places {
                return (Err(Fault::new(18, places)), listed);
            }
            listed.push(event);
        }
        (Ok(listed.len()), listed)
    }

    /// The events of the menu in order, each found when it is asked for.
    fn candidates<'a>(&'a self, host: &'a Host) -> impl Iterator<Item = Event> + 'a {
        self.opened.iter().flat_map(move |opened| {
            let events = opened.diagram.carried_events();
            events
                .into_iter()
                .filter(move |&event| opened.would_take(host, event))
        })
    }

    /// The held states in order, each with as many cells as the root takes.
    pub fn rows(&self) -> Vec<Vec<u16>> {
        let held = self.opened.iter().flat_map(|opened| &opened.held);
        held.cloned().collect()
    }

    /// How many cells the root takes; 0 if never opened.
    pub fn width(&self) -> usize {
        self.opened.as_ref().map_or(0, Opened::width)
    }

    /// Whether some held state is finished.
    pub fn is_finished(&self) -> bool {
        self.opened.as_ref().is_some_and(Opened::is_finished)
    }
}

impl Opened {
    /// Questions 16 and 17, and the states that come next.
    fn next_states(&self, host: &Host, event: Event) -> Result<Rows, Fault> {
        // One more than the ceiling allows is enough to know that there are too many.
        let wanted = self.ceiling + 1;
        let next = Offer::new(&self.diagram, host, event, wanted).successors_of_all(&self.held);
        match next.len() {
            0 => Err(Fault::new(16, self.held.len())),
            count if count > self.ceiling => Err(Fault::new(17, self.ceiling)),
            _ => Ok(next),
        }
    }

    /// Whether some held state has a successor; the first one found is enough.
    fn would_take(&self, host: &Host, event: Event) -> bool {
        let mut offer = Offer::new(&self.diagram, host, event, 1);
        !offer.successors_of_all(&self.held).is_empty()
    }

    fn width(&self) -> usize {
        self.diagram.width(self.diagram.root())
    }

    fn is_finished(&self) -> bool {
        let root = self.diagram.root();
        self.held
            .iter()
            .any(|row| self.diagram.is_finished(root, row))
    }
}
