//! The two sides beside each other: one event, given to both and compared.

use crate::border::{Border, Guarded};
use crate::case::{Case, Event, Name, Tables};
use crate::stops;
use second::Answer;

pub struct Pair<'a> {
    pub tables: &'a Tables,
    pub guard: u16,
    /// The second implementation's state.
    pub state: Vec<u16>,
    border: Border,
}

impl<'a> Pair<'a> {
    pub fn new(tables: &'a Tables, state: &[u16], guard: u16) -> Pair<'a> {
        Pair { tables, guard, state: state.to_vec(), border: Border::new(tables, state, guard) }
    }

    /// The answer on which both agree, or what differs.
    pub fn step(&mut self, event: &Event) -> Result<Answer, String> {
        stops::before(self, event);
        let engine = self.border.call(event);
        stops::after();
        let mut list = event.list.clone();
        let answer = second_call(self.tables, &mut self.state, event, &mut list);
        if engine != answer {
            return Err(format!(
                "the engine answers {},{} and the second implementation {},{}",
                engine.code, engine.second, answer.code, answer.second
            ));
        }
        self.untouched()?;
        same("state", self.engine_state(), &self.state)?;
        same("list", self.border.list.lent(), &list)?;
        Ok(answer)
    }

    pub fn engine_state(&self) -> &[u16] {
        self.border.state.lent()
    }

    /// Nothing outside what was lent was written, and no table.
    fn untouched(&self) -> Result<(), String> {
        let Border { rules, kinds, rights, state, list } = &self.border;
        let lent: [(&str, &Guarded); 5] = [
            ("rules", rules),
            ("kinds", kinds),
            ("rights", rights),
            ("state", state),
            ("list", list),
        ];
        for (name, guarded) in lent {
            if !guarded.is_intact() {
                return Err(format!("the engine wrote outside the {name} lent to it"));
            }
        }
        same("rules", rules.lent(), &self.tables.rules)?;
        same("kinds", kinds.lent(), &self.tables.kinds)?;
        same("rights", rights.lent(), &self.tables.rights)
    }
}

fn same(name: &str, engine: &[u16], second: &[u16]) -> Result<(), String> {
    if engine == second {
        return Ok(());
    }
    let at = engine.iter().zip(second).position(|(a, b)| a != b).unwrap_or(0);
    Err(format!(
        "number {at} of the {name} is {} in the engine and {} in the second implementation",
        engine[at], second[at]
    ))
}

pub fn second_call(tables: &Tables, state: &mut [u16], event: &Event, list: &mut [u16]) -> Answer {
    let Tables { rules, kinds, rights } = tables;
    let t = &second::Tables { rules, kinds, rights };
    let [a, b, c, d] = event.numbers;
    match event.name {
        Name::Fresh => second::fresh(state),
        Name::Activate => second::activate(t, state, a, b),
        Name::Appoint => second::appoint(t, state, a, b, c),
        Name::Revoke => second::revoke(t, state, a, b, c, d),
        Name::Withdraw => second::withdraw(t, state, a, b, c),
        Name::Environment => second::environment(t, state, a, b),
        Name::Logout => second::logout(t, state, a),
        Name::Invoke => second::invoke(t, state, a, b),
        Name::Effective => second::effective(t, state, a, b, c),
        Name::Chain => second::chain(t, state, a, b, list),
    }
}

/// A test of a case: nothing, or what is wrong and at which event.
pub type Test = fn(&Case) -> Option<(usize, String)>;

/// Whether the two sides differ at some event of the case.
pub fn calls_differ(case: &Case) -> Option<(usize, String)> {
    let mut pair = Pair::new(&case.tables, &case.state, case.guard);
    let steps = case.events.iter().enumerate();
    steps.fold(None, |found, (at, event)| {
        found.or_else(|| pair.step(event).err().map(|what| (at, what)))
    })
}

/// The event at which the two sides differ, alone, on the state before it.
pub fn alone(case: &Case) -> Option<Case> {
    let (at, _) = calls_differ(case)?;
    let mut pair = Pair::new(&case.tables, &case.state, case.guard);
    for event in &case.events[..at] {
        pair.step(event).ok()?;
    }
    let (tables, state) = (case.tables.clone(), pair.state);
    Some(Case { guard: case.guard, tables, state, events: vec![case.events[at].clone()] })
}

/// A case on which a test failed.
pub struct Failure {
    pub name: &'static str,
    pub test: Test,
    pub case: Case,
}

/// What a group comes to.
pub type Outcome<T> = Result<T, Box<Failure>>;

impl Failure {
    pub fn of_calls(case: Case) -> Box<Failure> {
        Box::new(Failure { name: "calls", test: calls_differ, case })
    }
}
