//! The states among which a line of a listing chooses, read from the bytes alone.

use crate::tables::{related, states, steps};
use oracle::{Layout, Line, Step};

/// The three files of an input that the judge accepts, or refuses for a duty alone.
pub struct Accepted<'a> {
    /// The steps of both tables, in table order.
    steps: [Vec<Step>; 2],
    certificate: &'a [u8],
    layout: Layout,
}

/// The step from s to u under a key at the other state t: what a line says of its duty.
#[derive(Clone, Copy)]
struct Duty {
    side: usize,
    s: usize,
    t: usize,
    step: usize,
    u: usize,
    key: u8,
}

impl<'a> Accepted<'a> {
    /// The files of this input, where the judge accepts it.
    pub fn new(input: &'a [u8]) -> Option<Accepted<'a>> {
        let [left, right, certificate] = oracle::pieces(input);
        let accepted = oracle::judge(left, right, certificate)[0] == 0;
        accepted.then(|| Accepted::of(left, right, certificate))
    }

    /// Well-formed files of which the certificate fits the tables.
    pub fn of(left: &[u8], right: &[u8], certificate: &'a [u8]) -> Accepted<'a> {
        let steps = [left, right].map(|table| steps(table).collect::<Vec<Step>>());
        Accepted {
            layout: Layout {
                n1: states(left),
                n2: states(right),
                m1: steps[0].len(),
                m2: steps[1].len(),
            },
            steps,
            certificate,
        }
    }

    /// The end u of the duty's step.
    pub fn end(&self, line: Line) -> u64 {
        self.duty(line).u as u64
    }

    /// The key of the duty's step.
    pub fn key(&self, line: Line) -> u8 {
        self.duty(line).key
    }

    /// Of a line with clause 2a or 2c, the states v that serve, in table order: by steps with
    /// the duty's key, and by silent ones.
    pub fn serving(&self, line: Line) -> Vec<u64> {
        let key = self.served_by(line);
        self.serving_under(line, |other| other == key)
    }

    /// The states v that would serve but for the keys of the steps to them.
    pub fn serving_but_for_the_key(&self, line: Line) -> Vec<u64> {
        let key = self.served_by(line);
        self.serving_under(line, |other| other != key)
    }

    /// Of a line with clause 2c, the states v that would serve but for the key of the steps to
    /// them, which is the duty's own.
    pub fn serving_by_the_own_key(&self, line: Line) -> Vec<u64> {
        let key = self.key(line);
        self.serving_under(line, |other| other == key && key != 0)
    }

    /// The key with which a step serves this clause.
    fn served_by(&self, line: Line) -> u8 {
        match line[4] {
            1 => self.key(line),
            _ => 0,
        }
    }

    fn serving_under(&self, line: Line, such: impl Fn(u8) -> bool) -> Vec<u64> {
        let duty = self.duty(line);
        self.ends(duty, such, |v| match line[4] {
            1 => self.related(duty.side, duty.u, v),
            _ => self.related(duty.side, duty.s, v) && self.falls(duty, v),
        })
    }

    /// The states v to which t steps silently with s, v related, whatever their ranks, in
    /// table order.
    pub fn waiting(&self, line: Line) -> Vec<u64> {
        let duty = self.duty(line);
        self.ends(duty, |key| key == 0, |v| self.related(duty.side, duty.s, v))
    }

    /// 2b holds of the duty: its step is silent, its step's end and t are related, and the A
    /// rank falls.
    pub fn pauses(&self, line: Line) -> bool {
        self.key(line) == 0 && self.pauses_whatever_the_key(line)
    }

    /// The same but for the key.
    pub fn pauses_whatever_the_key(&self, line: Line) -> bool {
        let Duty { side, s, t, u, .. } = self.duty(line);
        let rank = |state| {
            let places = [Layout::al, Layout::ar];
            self.certificate[places[side](&self.layout, state, t)]
        };
        self.related(side, u, t) && rank(u) < rank(s)
    }

    /// The end of the duty's step and t are related.
    pub fn end_is_related(&self, line: Line) -> bool {
        let Duty { side, t, u, .. } = self.duty(line);
        self.related(side, u, t)
    }

    /// Some step with a key leads from t to a state related to s.
    pub fn keyed_step_stays(&self, line: Line) -> bool {
        let duty = self.duty(line);
        let stays = |v| self.related(duty.side, duty.s, v);
        !self.ends(duty, |key| key != 0, stays).is_empty()
    }

    fn duty(&self, line: Line) -> Duty {
        let [side, left, right, step, ..] = line.map(|number| number as usize);
        let (s, t) = [(left, right), (right, left)][side];
        let of_duty = self.steps[side][step];
        Duty {
            side,
            s,
            t,
            step,
            u: of_duty.to,
            key: of_duty.key,
        }
    }

    /// The ends of those steps from t with such a key that lead to such a state.
    fn ends(
        &self,
        duty: Duty,
        such_key: impl Fn(u8) -> bool,
        such_state: impl Fn(usize) -> bool,
    ) -> Vec<u64> {
        let steps = self.steps[1 - duty.side].iter();
        steps
            .filter(|step| step.from == duty.t && such_key(step.key) && such_state(step.to))
            .map(|step| step.to as u64)
            .collect()
    }

    fn related(&self, side: usize, own: usize, other: usize) -> bool {
        let (s, t) = [(own, other), (other, own)][side];
        related(&self.certificate[self.layout.row(0)..], s, t)
    }

    /// The C rank of the duty's step at v is below that at t.
    fn falls(&self, duty: Duty, v: usize) -> bool {
        let rank = |state| {
            let places = [Layout::cl, Layout::cr];
            self.certificate[places[duty.side](&self.layout, duty.step, state)]
        };
        rank(v) < rank(duty.t)
    }
}
