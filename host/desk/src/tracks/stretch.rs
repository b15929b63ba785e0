//! The words among which the first that went another way is: those between the last judgement that held and the first that did not.

use crate::chip::event::Event;
use crate::chip::machine::{Kept, Machine, Memory};
use crate::chip::state::State;
use crate::chip::traced::{give_event, run_word, Columns};
use crate::scripts::player::prepare;
use crate::scripts::statement::{Action, Fill};
use crate::tracks::findings::Stretch;
use bemulatsho::kind;

/// More events, or more statements that prepare, are not kept if no judgement stands between them.
const MOST_KEPT: usize = 4096;

/// More words are not run again one by one.
const MOST_WORDS: u64 = 20_000;

/// More lines are not printed.
const MOST_LINES: usize = 400;

/// What was done to a machine since the last judgement that held.
pub struct Since {
    kept: Kept,
    events: Vec<Event>,
    /// Statements that prepare the machine, each with the number of events before it.
    prepared: Vec<(usize, Action)>,
    /// More was done than is kept.
    lost: bool,
}

impl Since {
    pub fn new(machine: &Machine) -> Since {
        Since { kept: machine.kept(), events: Vec::new(), prepared: Vec::new(), lost: false }
    }

    /// What was judged now held.
    #[inline]
    pub fn held(&mut self, machine: &Machine) {
        self.kept = machine.kept();
        self.events.clear();
        self.prepared.clear();
        self.lost = false;
    }

    #[inline]
    pub fn event(&mut self, event: Event) {
        if self.events.len() < MOST_KEPT {
            self.events.push(event);
        } else {
            self.lost = true;
        }
    }

    /// A statement that prepares the machine. An image that changes between two runs is not kept in both of its states.
    pub fn prepared(&mut self, action: &Action) {
        match action {
            Action::Fill(Fill { memory: Memory::Program | Memory::Rom, .. }) => self.lost |= !self.events.is_empty(),
            Action::Fill(_) | Action::Set { .. } if self.prepared.len() < MOST_KEPT => {
                self.prepared.push((self.events.len(), action.clone()))
            }
            Action::Fill(_) | Action::Set { .. } => self.lost = true,
            _ => {}
        }
    }

    /// How many words it was to run.
    fn words(&self) -> u64 {
        self.events.iter().filter(|event| event.kind == kind::RUN).map(|event| u64::from(event.value)).sum()
    }

    /// Does it again word by word; none if too much was done since. The machine has the images.
    pub fn again(&self, machine: &Machine) -> Option<Stretch> {
        if self.lost || self.words() > MOST_WORDS {
            return None;
        }
        let mut machine = machine.clone();
        machine.go_back(&self.kept);
        let columns = Columns::of_program(&machine);
        let mut stretch = Stretch { before: State::of(&machine), words: 0, lines: Vec::new() };
        let mut prepared = self.prepared.iter().peekable();
        for (at, event) in self.events.iter().enumerate() {
            while let Some((_, action)) = prepared.next_if(|(before, _)| *before <= at) {
                prepare(&mut machine, action);
            }
            match event {
                Event { kind: kind::RUN, value: words @ 1..=0xffff } => run(&mut machine, *words, &columns, &mut stretch),
                event => {
                    let line = columns.event(&give_event(&mut machine, *event));
                    stretch.add(line);
                }
            }
        }
        Some(stretch)
    }
}

fn run(machine: &mut Machine, words: u32, columns: &Columns, stretch: &mut Stretch) {
    for _ in 0..words {
        let word = run_word(machine);
        stretch.words += u64::from(word.reply.words);
        stretch.add(columns.word(stretch.words, &word));
        if word.reply.number != 0 {
            break;
        }
    }
}

impl Stretch {
    fn add(&mut self, line: String) {
        if self.lines.len() < MOST_LINES {
            self.lines.push(line);
        }
    }
}
