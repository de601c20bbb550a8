//! An honest opening, as the jobs write it.

use tvarchula_reference::sample::{Rng, Style};
use tvarchula_reference::{Answer, Field, Layout, LentCode, Reference};
use tvarchula_reference::{CodeJobs, OpeningJobs};

pub struct Honest<const P: u32> {
    pub layout: Layout,
    /// The base rows, T and T'.
    pub code: [Vec<u32>; 3],
    pub message: Vec<u32>,
    pub block: Vec<u32>,
    pub z: Vec<u32>,
    pub y: u32,
    pub r: Vec<u32>,
    pub queries: Vec<u32>,
    pub opening: Vec<u32>,
}

impl<const P: u32> Honest<P> {
    pub fn new(rng: &mut Rng, layout: Layout, style: Style) -> Honest<P> {
        let places = match layout.depth {
            0 => 0,
            depth => layout.block(depth - 1),
        };
        let mut honest = Honest {
            layout,
            code: rng.code(&layout, style),
            message: rng.words(layout.message(), style),
            block: Vec::new(),
            z: rng.words(layout.point(), style),
            y: 0,
            r: rng.words(layout.depth, style),
            queries: rng.places(places.min(5), places.max(1)),
            opening: Vec::new(),
        };
        honest.encode();
        honest.write();
        honest
    }

    pub fn lent(&self) -> LentCode<'_> {
        LentCode {
            field: Field::of(P),
            parameters: self.layout.parameters(),
            g: &self.code[0],
            t: &self.code[1],
            t2: &self.code[2],
        }
    }

    fn encode(&mut self) {
        let mut block = vec![u32::MAX; self.layout.top_block()];
        let done = Reference::encode(self.lent(), &self.message, &mut block);
        assert_eq!(done, Answer::DONE);
        self.block = block;
    }

    /// Writes the opening for the point and the challenges as they stand.
    pub fn write(&mut self) {
        let mut opening = vec![u32::MAX; self.layout.opening()];
        let (mut work, mut y) = (vec![u32::MAX; 2 * self.layout.message()], u32::MAX);
        let (message, z, r) = (&self.message, &self.z, &self.r);
        let done =
            Reference::write_opening(self.lent(), message, z, r, &mut opening, &mut work, &mut y);
        assert_eq!(done, Answer::DONE);
        assert!(work.iter().all(|&word| word == 0));
        (self.opening, self.y) = (opening, y);
    }

    pub fn verdict(&self) -> (u32, u32, u32) {
        let answer = Reference::verify_opening(
            self.lent(),
            &self.block,
            &self.z,
            self.y,
            &self.r,
            &self.queries,
            &self.opening,
        );
        (answer.number, answer.first, answer.second)
    }

    /// The verdict with one word of the opening moved.
    pub fn moved(&mut self, place: usize) -> (u32, u32, u32) {
        let kept = self.opening[place];
        self.opening[place] = (kept + 1) % P;
        let verdict = self.verdict();
        self.opening[place] = kept;
        verdict
    }
}
