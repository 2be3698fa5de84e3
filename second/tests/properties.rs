//! Random calls: what must hold whatever they are.

mod common;
use common::*;
use second::{Call, Tables};

/// A small generator, the same on every run.
struct Random(u64);

impl Random {
    fn below(&mut self, bound: usize) -> usize {
        self.0 =
            self.0.wrapping_mul(6_364_136_223_846_793_005).wrapping_add(1_442_695_040_888_963_407);
        ((self.0 >> 33) % bound as u64) as usize
    }
    fn number(&mut self, bound: u16) -> u16 {
        self.below(bound.into()) as u16
    }
    /// A number near a limit, or any.
    fn wild(&mut self) -> u16 {
        let near = [0, 1, 2, 3, 8, 63, 64, 255, 256, 257, 383, 384, 447, 448, 1_023, 4_095, 4_096];
        match self.below(4) {
            0 => self.below(65_536) as u16,
            1 => near[self.below(near.len())],
            _ => self.number(3),
        }
    }
    fn wild_numbers(&mut self, lengths: &[usize]) -> Vec<u16> {
        let length = lengths[self.below(lengths.len())];
        let zeros = self.below(3) > 0;
        (0..length).map(|_| if zeros { 0 } else { self.wild() }).collect()
    }
}

fn wild_call(random: &mut Random) -> Call {
    let [a, b, c, d] = [(); 4].map(|()| random.wild());
    match random.below(8) {
        0 => Call::Activate { user: a, role: b },
        1 => Call::Appoint { appointer: a, appointee: b, kind: c },
        2 => Call::Revoke { caller: a, appointee: b, kind: c, appointer: d },
        3 => Call::Withdraw { appointee: a, kind: b, appointer: c },
        4 => Call::Environment { fact: a, value: b },
        5 => Call::Logout { user: a },
        6 => Call::Invoke { user: a, privilege: b },
        _ => Call::Effective { user: a, role: b, privilege: c },
    }
}

#[test]
fn any_numbers_are_answered_by_a_code_of_the_table() {
    let mut random = Random(1);
    let mut seen = [false; 13];
    for _ in 0..20_000 {
        let rules = random.wild_numbers(&[0, 0, 11, 22, 23, 5_632, 5_643]);
        let kinds = random.wild_numbers(&[0, 0, 7, 14, 15, 896, 903]);
        let rights = random.wild_numbers(&[0, 0, 2, 3, 4_096, 4_098]);
        let tables = Tables { rules: &rules, kinds: &kinds, rights: &rights };
        let mut state =
            random.wild_numbers(&[1_602, 1_602, 1_602, 1_602, 0, 1, 64, 65, 1_601, 1_603]);
        let call = wild_call(&mut random);
        let mut codes = vec![second::call(&tables, &mut state, call).code];
        let mut list = random.wild_numbers(&[256, 256, 0, 255, 257]);
        let (user, role) = (random.wild(), random.wild());
        codes.push(second::chain(&tables, &state, user, role, &mut list).code);
        codes.push(second::fresh(&mut state).code);
        codes.iter().for_each(|&code| seen[usize::from(code)] = true);
    }
    assert_eq!(seen[..4], [true; 4]);
}

#[test]
fn any_bytes_are_answered_by_records() {
    let mut random = Random(2);
    let parts: [&[u8]; 16] = [
        b"rule,",
        b"kind,",
        b"logout,",
        b"activate,",
        b"0",
        b"1",
        b"256",
        b",",
        b",",
        b"\"",
        b"\r\n",
        b"\r\n",
        b"\r",
        b"\n",
        b"\xff",
        b"x",
    ];
    for _ in 0..5_000 {
        let length = random.below(12);
        let input: Vec<u8> =
            (0..length).flat_map(|_| parts[random.below(parts.len())].to_vec()).collect();
        let output = text(second::run(&input));
        let records: Vec<&str> = output.split_terminator("\r\n").collect();
        assert!(output.is_empty() || output.ends_with("\r\n"));
        for (index, record) in records.iter().enumerate() {
            let bad = record.starts_with("bad,");
            assert!(!bad || index + 1 == records.len(), "{input:?}");
            assert_eq!(record.split(',').count(), 2, "{input:?}");
        }
    }
}

/// A small policy whose roles, kinds and facts meet often.
fn small_policy(random: &mut Random) -> World {
    let mut w = world();
    for _ in 0..2 {
        let prerequisites: Vec<u16> = (0..random.below(3)).map(|_| random.number(6)).collect();
        w = w.kind(0, random.number(2), &prerequisites);
    }
    w = w.rule(0, 0, &[]);
    for _ in 0..20 {
        let conditions: Vec<u16> = (0..1 + random.below(3))
            .map(|_| match random.below(4) {
                0 => kind(random.number(2)),
                1 => fact(random.number(2)),
                _ => random.number(6),
            })
            .collect();
        let n = conditions.len() as u16;
        let m = if random.below(3) == 0 { random.number(n + 1) } else { n };
        w = w.rule(random.number(6), m, &conditions);
    }
    w.right(random.number(6), 1).right(random.number(6), 2)
}

/// A call in the small policy's ranges, mostly one that builds up.
fn session_call(random: &mut Random) -> Call {
    let [user, other, third] = [(); 3].map(|()| random.number(3));
    let (role, kind, fact) = (random.number(6), random.number(2), random.number(2));
    match random.below(20) {
        0..10 => Call::Activate { user, role },
        10..14 => Call::Appoint { appointer: user, appointee: other, kind },
        14 => Call::Revoke { caller: third, appointee: other, kind, appointer: user },
        15 => Call::Withdraw { appointee: other, kind, appointer: user },
        16..18 => Call::Environment { fact, value: 1 },
        18 => Call::Environment { fact, value: 0 },
        _ => Call::Logout { user },
    }
}

/// Whether the membership conditions of each row hold with these rows active,
/// read from the raw numbers.
fn supported(w: &World, rows: &[[u16; 3]]) -> bool {
    let active = |user, role| rows.iter().any(|row| row[0] == user && row[1] == role);
    let holds = |user, condition: u16| match condition {
        0..=255 => active(user, condition),
        256..=383 => {
            let kind = &w.kinds[usize::from(condition - 256) * 7..][..7];
            let certificates = w.certificates();
            certificates.iter().any(|c| c[0] == user && c[1] == condition - 256)
                && kind[3..][..usize::from(kind[2])].iter().all(|&role| active(user, role))
        }
        _ => w.state[usize::from(condition - 384)] == 1,
    };
    rows.iter().all(|row| {
        let rule = &w.rules[usize::from(row[2]) * 11..][..11];
        rule[3..][..usize::from(rule[2])].iter().all(|&condition| holds(row[0], condition))
    })
}

/// The largest supported set, looked for among all sets of the rows before.
fn largest_of_all_sets(after: &World, before: &[[u16; 3]]) -> Vec<[u16; 3]> {
    (0..1usize << before.len())
        .map(|set| (0..before.len()).filter(|i| set >> i & 1 == 1).map(|i| before[i]).collect())
        .filter(|rows: &Vec<_>| supported(after, rows))
        .max_by_key(Vec::len)
        .expect("the empty set is supported")
}

/// "the rows left are the largest set of the rows before in which each row's
/// membership conditions hold"; "activations accepted less roles reported lost
/// equals the active count".
#[test]
fn the_largest_set_is_left_and_the_lost_rows_are_counted() {
    let mut random = Random(3);
    let (mut falls, mut cascades) = (0, 0);
    for _ in 0..150 {
        let mut w = small_policy(&mut random);
        let mut balance = 0;
        for _ in 0..200 {
            let call = session_call(&mut random);
            let before = w.rows();
            let (code, second) = w.ask(Asked::Event(call));
            match call {
                Call::Activate { .. } if code == 0 => balance += 1,
                Call::Logout { .. } => balance -= second,
                Call::Revoke { .. } | Call::Withdraw { .. } | Call::Environment { .. } => {
                    balance -= second;
                    falls += u16::from(second > 0);
                    cascades += u16::from(second > 2);
                    if code == 0 && before.len() <= 10 {
                        assert_eq!(w.rows(), largest_of_all_sets(&w, &before), "{call:?}");
                    }
                }
                _ => {}
            }
            assert_eq!(balance, w.state[64], "{call:?}");
        }
    }
    assert!(falls >= 300 && cascades >= 50, "the sessions met {falls} falls, {cascades} deep");
}
