//! The baselines and the border agree on many calls, on sound tables and on spoilt ones.

use crate::call::{Call, JUDGING, NOT_JUDGING};
use crate::scene::{Scene, CERTIFICATE_COUNT, FULL, MIDDLE, ROW_COUNT};
use adobethrum::LIST;

/// Numbers that look random, the same ones in every run.
struct Numbers(u64);

impl Numbers {
    fn below(&mut self, limit: usize) -> usize {
        self.0 ^= self.0 << 13;
        self.0 ^= self.0 >> 7;
        self.0 ^= self.0 << 17;
        (self.0 % limit as u64) as usize
    }

    /// Mostly small, sometimes at the edge of a range.
    fn number(&mut self, usual: usize) -> u16 {
        const EDGES: [u16; 12] = [0, 1, 2, 8, 9, 255, 256, 383, 447, 1023, 4095, 4096];
        match self.below(20) {
            0 => EDGES[self.below(EDGES.len())],
            _ => self.below(usual) as u16,
        }
    }

    fn user(&mut self) -> u16 {
        self.number(34)
    }

    fn role(&mut self) -> u16 {
        let usual = [60, 256][self.below(2)];
        self.number(usual)
    }

    fn kind(&mut self) -> u16 {
        let usual = [20, 128][self.below(2)];
        self.number(usual)
    }

    fn call(&mut self) -> Call {
        match self.below(40) {
            0..10 => Call::Activate(self.user(), self.role()),
            10..18 => Call::Appoint(self.user(), self.user(), self.kind()),
            18..21 => Call::Revoke(self.user(), self.user(), self.kind(), self.user()),
            21..24 => Call::Withdraw(self.user(), self.kind(), self.user()),
            24..28 => Call::Environment(self.number(4), (self.below(4) > 0) as u16),
            28 => Call::Logout(self.user()),
            29..33 => Call::Invoke(self.user(), self.number(200)),
            33..36 => Call::Effective(self.user(), self.role(), self.number(200)),
            _ => Call::Chain(self.user(), self.role()),
        }
    }

    /// A call about a row or a certificate that stands, where there is one.
    fn call_about(&mut self, state: &[u16]) -> Call {
        let [[user, role, _], [appointee, kind, appointer]] = [ROW_COUNT, CERTIFICATE_COUNT].map(|count| self.row(state, count));
        match self.below(10) {
            0 => Call::Activate(user, role),
            1 => Call::Activate(user, self.role()),
            2 => Call::Appoint(appointer, appointee, kind),
            3 => Call::Appoint(user, self.user(), self.kind()),
            4 => Call::Revoke([appointer, user][self.below(2)], appointee, kind, appointer),
            5 => Call::Withdraw(appointee, kind, appointer),
            6 => Call::Invoke(user, self.number(1024)),
            7 | 8 => Call::Effective(user, role, self.number(1024)),
            _ => Call::Chain(user, role),
        }
    }

    /// Some row of a table of the state, which may be spoilt.
    fn row(&mut self, state: &[u16], count: usize) -> [u16; 3] {
        let rows = state.get(count).map_or(0, |&rows| rows.clamp(1, 256));
        let at = count + 1 + 3 * self.below(usize::from(rows).max(1));
        state.get(at..at + 3).map_or([0; 3], |row| [row[0], row[1], row[2]])
    }

    /// One place of a table, or its length; or in a state one row over another.
    fn spoil(&mut self, scene: &mut Scene) {
        let which = self.below(5);
        let table = match which {
            0 => &mut scene.rules,
            1 => &mut scene.kinds,
            2 => &mut scene.rights,
            _ => &mut scene.state,
        };
        match self.below(10) {
            0 => drop(table.pop()),
            1 => table.push(0),
            2..5 if which > 2 => {
                let count = [ROW_COUNT, CERTIFICATE_COUNT][self.below(2)];
                let (row, at) = (self.row(table, count), count + 1 + 3 * self.below(256));
                table[at..at + 3].copy_from_slice(&row);
            }
            _ => {
                let place = self.below(table.len().max(1));
                table.iter_mut().skip(place).take(1).for_each(|number| *number = self.number(500));
            }
        }
    }
}

/// Gives all sides the call, which must do the same; so must those that do not judge, where policy and state are found sound.
fn all(call: Call, scene: &Scene, state: &mut [u16], list: &mut [u16]) -> u16 {
    let (before, list_before) = (state.to_vec(), list.to_vec());
    let (_, ours) = JUDGING[0];
    let answer = ours(call, scene.policy(), state, list);
    let unsound = [1, 2].contains(&answer.code);
    for (name, side) in JUDGING[1..].iter().chain(NOT_JUDGING.iter().filter(|_| !unsound)) {
        let (mut other, mut other_list) = (before.clone(), list_before.clone());
        assert_eq!(answer, side(call, scene.policy(), &mut other, &mut other_list), "{name}: {call:?}");
        assert_eq!((&*state, &*list), (&other[..], &other_list[..]), "{name}: {call:?}");
    }
    answer.code
}

fn scenes() -> [Scene; 4] {
    let diamonds = [Scene::diamond(&[5, 7, 200, 9]), Scene::diamond_through_kinds()];
    let [one, other] = diamonds.map(Result::unwrap);
    let [middle, full] = [&MIDDLE, &FULL].map(|size| Scene::workshop(size).unwrap());
    [middle, full, one, other]
}

#[test]
fn on_sound_tables() {
    let mut numbers = Numbers(7);
    let mut seen = [0; 13];
    let mut list = [0; LIST];
    for scene in scenes() {
        let mut state = scene.state.clone();
        for _ in 0..20_000 {
            let call = if numbers.below(2) == 0 { numbers.call() } else { numbers.call_about(&state) };
            seen[all(call, &scene, &mut state, &mut list) as usize] += 1;
            if numbers.below(300) == 0 {
                state.copy_from_slice(&scene.state);
            }
        }
    }
    for code in [0, 3, 4, 5, 6, 7, 8, 9, 10, 12] {
        assert!(seen[code] > 100, "code {code} was seen {} times", seen[code]);
    }
}

#[test]
fn on_spoilt_tables() {
    let mut numbers = Numbers(9);
    let mut seen = [0; 13];
    let mut list = [0; LIST];
    for whole in scenes() {
        for _ in 0..10_000 {
            let mut scene = whole.clone();
            numbers.spoil(&mut scene);
            let mut state = scene.state.clone();
            seen[all(numbers.call(), &scene, &mut state, &mut list) as usize] += 1;
        }
    }
    for code in [0, 1, 2] {
        assert!(seen[code] > 1000, "code {code} was seen {} times", seen[code]);
    }
}

/// 256 users in one role each, and 256 certificates of one kind: the most users that a state can have, and one more that asks.
#[test]
fn many_users() {
    let mut scene = Scene::default();
    scene.rule(0, 0, &[]);
    scene.rule(1, 1, &[256]);
    scene.kind(0, 1, &[]);
    scene.story.extend((0..256).map(|user| Call::Activate(16 * user, 0)));
    scene.story.extend((0..256).map(|user| Call::Appoint(0, 4095 - 15 * user, 0)));
    let mut scene = scene.told().unwrap();
    let mut state = scene.state.clone();
    assert_eq!(all(Call::Activate(4095, 1), &scene, &mut state, &mut []), 6);
    assert_eq!(all(Call::Appoint(16, 1, 0), &scene, &mut state, &mut []), 6);
    assert_eq!(all(Call::Revoke(16, 4095, 0, 0), &scene, &mut state, &mut []), 0);
    scene.state[CERTIFICATE_COUNT + 1 + 3 * 255..][..3].copy_from_slice(&[4095, 0, 0]);
    assert_eq!(all(Call::Logout(0), &scene, &mut scene.state.clone(), &mut []), 2);
}

#[test]
fn lists_and_states_of_another_length() {
    let scene = Scene::empty().unwrap();
    let mut state = scene.state.clone();
    assert_eq!(all(Call::Chain(1, 1), &scene, &mut state, &mut [9; 255]), 3);
    assert_eq!(all(Call::Fresh, &scene, &mut state[1..], &mut []), 2);
    assert_eq!(all(Call::Fresh, &scene, &mut [7; 1602], &mut []), 0);
}
