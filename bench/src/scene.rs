//! Policies, and the calls that lead from a fresh state to the one that is measured.

use crate::call::{Call, JUDGING};
use adobethrum::{Policy, LIST, STATE};

/// Where the counts of active rows and of certificates stand in a state.
pub const ROW_COUNT: usize = 64;
pub const CERTIFICATE_COUNT: usize = 833;

/// A privilege that only the last right gives, and one that none gives.
pub const LAST_PRIVILEGE: u16 = 1001;
pub const NO_PRIVILEGE: u16 = 1023;

/// The user who comes last: one role, one certificate, on which nothing rests.
pub const LATE_USER: u16 = 4000;

#[derive(Clone, Default)]
pub struct Scene {
    pub rules: Vec<u16>,
    pub kinds: Vec<u16>,
    pub rights: Vec<u16>,
    /// Leads from a fresh state to this one.
    pub story: Vec<Call>,
    /// What the program writes for the story.
    pub answers: String,
    pub state: Vec<u16>,
}

/// How large a workshop is. Users hold roles in blocks: each role of a block rests on the one before it.
pub struct Size {
    pub roles: u16,
    pub kinds: u16,
    pub rights: u16,
    pub users: u16,
    pub depth: u16,
}

pub const MIDDLE: Size = Size { roles: 60, kinds: 20, rights: 200, users: 9, depth: 9 };
pub const FULL: Size = Size { roles: 256, kinds: 128, rights: 2048, users: 32, depth: 8 };

impl Size {
    /// The first role of the last block: who is active in it appoints.
    pub fn manager(&self) -> u16 {
        (self.roles / self.depth - 1) * self.depth
    }

    /// The first role of the user's block.
    pub fn first_role(&self, user: u16) -> u16 {
        user % (self.roles / self.depth) * self.depth
    }

    /// A user in all roles of a block, and the last of them.
    pub fn deep_user(&self) -> (u16, u16) {
        let user = self.users - 2;
        (user, self.first_role(user) + self.depth - 1)
    }
}

impl Scene {
    pub fn rule(&mut self, target: u16, membership: u16, conditions: &[u16]) {
        let mut row = [0; 11];
        row[..3].copy_from_slice(&[target, conditions.len() as u16, membership]);
        row[3..3 + conditions.len()].copy_from_slice(conditions);
        self.rules.extend(row);
    }

    pub fn kind(&mut self, appointer: u16, mode: u16, prerequisites: &[u16]) {
        let mut row = [0; 7];
        row[..3].copy_from_slice(&[appointer, mode, prerequisites.len() as u16]);
        row[3..3 + prerequisites.len()].copy_from_slice(prerequisites);
        self.kinds.extend(row);
    }

    pub fn policy(&self) -> Policy<'_> {
        Policy { rules: &self.rules, kinds: &self.kinds, rights: &self.rights }
    }

    /// Runs the story on every side. Each call must be accepted, with the same answer and the same state on all.
    pub fn told(mut self) -> Result<Scene, String> {
        let mut states = vec![[0; STATE]; JUDGING.len()];
        let mut list = [0; LIST];
        for &call in &self.story {
            let told = JUDGING.iter().zip(&mut states).map(|((_, side), state)| side(call, self.policy(), state, &mut list));
            let answers: Vec<_> = told.collect();
            let agreed = answers[1..].iter().all(|answer| *answer == answers[0]) && states[1..].iter().all(|state| *state == states[0]);
            if answers[0].code != 0 || !agreed {
                return Err(format!("{call:?} of a story: refused, or the sides differ"));
            }
            self.answers.push_str(&format!("{},{}\r\n", answers[0].code, answers[0].second));
        }
        self.state = states[0].to_vec();
        Ok(self)
    }

    /// Nobody is there, under a policy of four rules.
    pub fn empty() -> Result<Scene, String> {
        let mut scene = Scene { rights: vec![2, 20, 3, 30], ..Scene::default() };
        scene.rule(0, 0, &[]);
        scene.rule(1, 0, &[]);
        scene.rule(2, 2, &[0, 256]);
        scene.rule(3, 2, &[2, 384]);
        scene.kind(1, 0, &[]);
        scene.told()
    }

    /// A workshop. Two rules for each role, of which the first is never satisfied. The first role of a block rests on fact 0 (that of
    /// the last block on fact 1), each other one on the role before it and a certificate; fact 2 is asked at the grant only.
    pub fn workshop(size: &Size) -> Result<Scene, String> {
        let mut scene = Scene::default();
        let kind_of = |role: u16| (role as u32 * size.kinds as u32 / size.roles as u32) as u16;
        for role in 0..size.roles {
            scene.rule(role, 1, &[386, 386, 386, 447]);
            if role % size.depth == 0 {
                scene.rule(role, 1, &[if role == size.manager() { 385 } else { 384 }]);
            } else {
                scene.rule(role, 2, &[role - 1, 256 + kind_of(role), 386]);
            }
        }
        for kind in 0..size.kinds {
            let role = kind * (size.roles / size.kinds);
            let first = role / size.depth * size.depth;
            scene.kind(size.manager(), kind % 3, &[first, first.max(role.saturating_sub(1))]);
        }
        scene.rights = (0..size.rights - 1).flat_map(|i| [i % size.roles, i % 1000]).collect();
        scene.rights.extend([size.deep_user().1, LAST_PRIVILEGE]);

        let late = Call::Activate(LATE_USER, size.manager());
        scene.story.extend([0, 1, 2].map(|fact| Call::Environment(fact, 1)));
        scene.story.push(late);
        let step = |depth: u16| (0..size.users).map(move |user| Call::Activate(user, size.first_role(user) + depth));
        scene.story.extend(step(0));
        let of_block = size.depth / (size.roles / size.kinds);
        let manager = (0..size.users).find(|&user| size.first_role(user) == size.manager()).ok_or("no manager")?;
        for appointer in [manager, LATE_USER] {
            for nth in 0..of_block {
                let kind = |user| kind_of(size.first_role(user)) + nth;
                scene.story.extend((0..size.users).map(|user| Call::Appoint(appointer, user, kind(user))));
            }
        }
        scene.story.pop();
        scene.story.extend([Call::Appoint(LATE_USER, LATE_USER, size.kinds - 1), Call::Logout(LATE_USER)]);
        scene.story.extend((1..size.depth).flat_map(step));
        scene.story.pop();
        scene.story.push(late);
        scene.told()
    }

    /// The scene with only so many active rows, and so many certificates.
    pub fn cut(&self, rows: usize) -> Scene {
        let mut scene = self.clone();
        for count in [ROW_COUNT, CERTIFICATE_COUNT] {
            scene.state[count] = rows as u16;
            scene.state[count + 1 + 3 * rows..count + 1 + 3 * 256].fill(0);
        }
        scene
    }

    /// Full tables in which no row rests on a certificate, so that any may stand: a rule that asks for one asks for the role before its
    /// own a second time.
    pub fn on_roles() -> Result<Scene, String> {
        let mut scene = Scene::workshop(&FULL)?;
        for rule in scene.rules.chunks_exact_mut(11).filter(|rule| (256..384).contains(&rule[4])) {
            rule[4] = rule[3];
        }
        Ok(scene)
    }

    /// The scene with these certificates and no others.
    pub fn with_certificates(mut self, certificates: &[[u16; 3]]) -> Scene {
        let table = &mut self.state[CERTIFICATE_COUNT..];
        table.fill(0);
        table[0] = certificates.len() as u16;
        table[1..].iter_mut().zip(certificates.iter().flatten()).for_each(|(place, &number)| *place = number);
        self
    }

    /// A diamond: one user in 256 roles, each granted on a rule that names the role before it eight times.
    pub fn diamond(rights: &[u16]) -> Result<Scene, String> {
        let mut scene = Scene { rights: rights.to_vec(), ..Scene::default() };
        scene.rule(0, 0, &[]);
        (1..256).for_each(|role| scene.rule(role, 8, &[role - 1; 8]));
        scene.story.extend((0..256).map(|role| Call::Activate(0, role)));
        scene.told()
    }

    /// A diamond through kinds: role r rests eight times on kind r - 1, which has role r - 1 as its four prerequisites. There are 128
    /// kinds only, so the upper half is as in the other diamond; role 255 is the appointer's.
    pub fn diamond_through_kinds() -> Result<Scene, String> {
        let mut scene = Scene::default();
        scene.rule(0, 0, &[]);
        scene.rule(255, 0, &[]);
        (1..128).for_each(|role| scene.rule(role, 8, &[256 + role - 1; 8]));
        (128..255).for_each(|role| scene.rule(role, 8, &[role - 1; 8]));
        (0..128).for_each(|kind| scene.kind(255, 0, &[kind; 4]));
        scene.story.push(Call::Activate(1, 255));
        scene.story.extend((0..128).map(|kind| Call::Appoint(1, 0, kind)));
        scene.story.extend((0..255).map(|role| Call::Activate(0, role)));
        scene.told()
    }

    /// The policy and the story as the program's records.
    pub fn records(&self) -> String {
        let mut text = String::new();
        let mut record = |word: &str, numbers: &[&[u16]]| {
            text.push_str(word);
            numbers.iter().copied().flatten().for_each(|number| text.push_str(&format!(",{number}")));
            text.push_str("\r\n");
        };
        for row in self.rules.chunks_exact(11) {
            record("rule", &[&[row[0], row[2]], &row[3..3 + row[1] as usize]]);
        }
        for row in self.kinds.chunks_exact(7) {
            record("kind", &[&row[..2], &row[3..3 + row[2] as usize]]);
        }
        for row in self.rights.chunks_exact(2) {
            record("right", &[row]);
        }
        text.extend(self.story.iter().map(|call| call.record()));
        text
    }
}
