//! A case is one call with all it is lent, a whole session, how long a plan lets wait, its sets' numbers together, or a party alone; running
//! a call on the reference and on a subject must give the same reply and the same elements in every lent slice.

use crate::alone::Alone;
use crate::calls::{Calls, Description, CALLS};
use crate::classes::{in_its_edition, met};
use crate::forms::{evidence, letters, REFUSED};
use crate::lent::{hex, pattern, Element, Given};
use crate::reference::calls::{why, Reference};
use crate::reference::{claim, plan};
use crate::session::Session;
use crate::together::Together;
use crate::waiting::Waiting;

/// One call, with what is given for each parameter of its description.
#[derive(Clone)]
pub struct Call {
    pub what: &'static Description,
    pub given: Vec<Given>,
}

#[derive(Clone)]
pub enum Case {
    Call(Call),
    Session(Session),
    Waiting(Waiting),
    Together(Together),
    Alone(Alone),
}

/// A reply, and the call with what its slices hold then. Input slices are lent as copies, so that writing into one shows too.
pub struct Outcome {
    pub reply: u32,
    pub left: Call,
}

impl Call {
    pub fn new(name: &str, given: Vec<Given>) -> Call {
        let what = CALLS.iter().find(|call| call.name == name).expect("a call of the table");
        Call { what, given }
    }

    /// With the pattern where room is given.
    pub fn lent(&self) -> Call {
        let mut call = self.clone();
        for (given, parameter) in call.given.iter_mut().zip(self.what.parameters) {
            if let Given::Room(length) = given {
                *given = (parameter.room)(*length);
            }
        }
        call
    }

    pub fn on(&self, calls: &dyn Calls) -> Outcome {
        let mut left = self.lent();
        let reply = (self.what.run)(calls, &mut left.given);
        Outcome { reply, left }
    }

    fn place(&self, name: &str) -> Option<usize> {
        self.what.parameters.iter().position(|parameter| parameter.name == name)
    }

    pub fn slice<T: Element>(&self, name: &str) -> &[T] {
        T::slice(&self.given[self.place(name).expect(name)])
    }

    pub fn number(&self, name: &str) -> u64 {
        let given = &self.given[self.place(name).expect(name)];
        let &Given::Number(number) = given else { panic!("{given:?} is no number") };
        number
    }

    /// The plan bytes that it is lent, if it is one on a plan.
    pub fn plan(&self) -> Option<&[u8]> {
        self.place("plan").map(|place| u8::slice(&self.given[place]))
    }

    /// The party that is named: 0 where the call takes none.
    pub fn party(&self) -> u32 {
        self.place("party").map_or(0, |_| self.number("party") as u32)
    }

    /// Writes the beginning of a slice.
    pub fn write<T: Element>(&mut self, name: &str, beginning: &[T]) {
        let place = self.place(name).expect(name);
        T::slice_mut(&mut self.given[place])[..beginning.len()].copy_from_slice(beginning);
    }

    pub fn show(&self) -> String {
        let each = self.what.parameters.iter().zip(&self.given);
        let each: Vec<String> = each.map(|(parameter, given)| format!("{} {}", parameter.name, given.show(usize::MAX))).collect();
        format!("{}: {}", self.what.name, each.join(", "))
    }

    /// Runs it on the reference and on a subject.
    fn compare(&self, subject: &dyn Calls) -> Result<Vec<String>, String> {
        let mut expected = self.on(&Reference);
        let met = met(self, &expected, why());
        let given = self.on(subject);
        if expected.reply == REFUSED + 15 && given.reply == expected.reply && self.place("evidence").is_some() {
            self.check_evidence(&given.left, subject)?;
            expected.left.write::<u32>("evidence", given.left.slice("evidence"));
            expected.left.write::<u8>("letters", given.left.slice("letters"));
        }
        expected.agree(&given, subject)?;
        Ok(met)
    }

    /// Under 15 the choice of evidence is free, and all that document 01 asks of it is checked.
    fn check_evidence(&self, left: &Call, subject: &dyn Calls) -> Result<(), String> {
        let (numbers, codes): (&[u32], &[u8]) = (left.slice("evidence"), left.slice("letters"));
        let wrong = |what: &str| Err(format!("{what}: evidence {}, letters {}", hex(numbers), hex(codes)));
        let bytes = self.slice("plan");
        let plan = plan::read_for(bytes, self.party()).expect("15 comes after 1 to 7 and 16");
        let length = numbers[evidence::LEAD_IN] as usize + numbers[evidence::LOOP] as usize;
        if length > letters(plan.n) {
            return wrong("lead-in and loop are longer than n × n");
        }
        let (claim, rest) = numbers.split_at(evidence::NUMBERS);
        let (codes, more) = codes.split_at(length);
        if rest != &pattern(numbers.len())[evidence::NUMBERS..] || more != &pattern(length + more.len())[length..] {
            return wrong("the rest of the evidence was not kept");
        }
        if !claim::holds(&plan, claim, codes) {
            return wrong("the reference's check says no to the evidence");
        }
        if subject.check(bytes, self.party(), claim, codes) != 1 {
            return wrong("the subject's own check says no to its evidence");
        }
        Ok(())
    }
}

impl Outcome {
    /// Whether the other is the same, and else what differs.
    pub fn agree(&self, given: &Outcome, by: &dyn Calls) -> Result<(), String> {
        if self.reply == given.reply && self.left.given == given.left.given {
            return Ok(());
        }
        Err(format!("expected {}\n  {} gave {}", self.show(given), by.name(), given.show(self)))
    }

    /// The reply, and of the slices those that differ from the other's.
    fn show(&self, other: &Outcome) -> String {
        let mut text = show_reply(self.reply);
        for (parameter, (mine, theirs)) in self.left.what.parameters.iter().zip(self.left.given.iter().zip(&other.left.given)) {
            if mine != theirs {
                text += &format!(", {} {}", parameter.name, mine.show(200));
            }
        }
        text
    }
}

pub fn show_reply(reply: u32) -> String {
    if reply >= REFUSED {
        return format!("refused {}", reply - REFUSED);
    }
    format!("value {reply}")
}

impl Case {
    /// Answers the classes that were met, each by itself and as one of the plan's edition, or what the reference and the subject disagree
    /// about.
    pub fn compare(&self, subject: &dyn Calls) -> Result<Vec<String>, String> {
        let (met, plan) = match self {
            Case::Call(call) => (call.compare(subject)?, call.plan()),
            Case::Session(session) => (session.compare(subject)?, Some(session.plan.as_slice())),
            Case::Waiting(waiting) => (waiting.compare(subject)?, Some(waiting.plan.as_slice())),
            Case::Together(together) => (together.compare(subject)?, Some(together.plan.as_slice())),
            Case::Alone(alone) => (alone.compare(subject)?, Some(alone.plan.as_slice())),
        };
        Ok(in_its_edition(met, plan))
    }

    /// Of a case that is one call.
    pub fn call(&self) -> &Call {
        let Case::Call(call) = self else { panic!("{} is not one call", self.show()) };
        call
    }

    /// In hexadecimal, so that it can be built again by hand.
    pub fn show(&self) -> String {
        match self {
            Case::Call(call) => call.show(),
            Case::Session(session) => session.show(),
            Case::Waiting(waiting) => waiting.show(),
            Case::Together(together) => together.show(),
            Case::Alone(alone) => alone.show(),
        }
    }
}
