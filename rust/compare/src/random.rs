//! Random numbers that are the same in every run, and the shapes that keys are drawn in.

/// The highest key, and the word that stands for infinity.
pub const TOP: u32 = u32::MAX - 1;
pub const INFINITY: u32 = u32::MAX;

/// Splitmix64.
#[derive(Clone)]
pub struct Random(pub u64);

impl Random {
    /// The generator of one job of one round of one seed.
    pub fn of(seed: u64, round: u64, job: u64) -> Random {
        let mut random = Random(seed);
        random.0 = random.draw() ^ round;
        random.0 = random.draw() ^ job;
        random.draw();
        random
    }

    pub fn draw(&mut self) -> u64 {
        self.0 = self.0.wrapping_add(0x9E37_79B9_7F4A_7C15);
        let mut z = self.0;
        z = (z ^ (z >> 30)).wrapping_mul(0xBF58_476D_1CE4_E5B9);
        z = (z ^ (z >> 27)).wrapping_mul(0x94D0_49BB_1331_11EB);
        z ^ (z >> 31)
    }

    /// A number below the bound, which is not 0.
    pub fn below(&mut self, bound: usize) -> usize {
        (self.draw() % bound as u64) as usize
    }

    /// A number from the first to the last, both counted.
    pub fn from(&mut self, first: usize, last: usize) -> usize {
        first + self.below(last - first + 1)
    }

    /// True once in so many times.
    pub fn once_in(&mut self, times: usize) -> bool {
        self.below(times) == 0
    }

    pub fn word(&mut self) -> u32 {
        self.draw() as u32
    }

    /// A word below the bound, which is not 0.
    pub fn word_below(&mut self, bound: u32) -> u32 {
        (self.draw() % u64::from(bound)) as u32
    }

    /// Any key.
    pub fn key(&mut self) -> u32 {
        self.word_below(INFINITY)
    }

    pub fn pick<'a, T>(&mut self, from: &'a [T]) -> &'a T {
        &from[self.below(from.len())]
    }

    pub fn shuffle<T>(&mut self, list: &mut [T]) {
        for last in (1..list.len()).rev() {
            list.swap(last, self.below(last + 1));
        }
    }
}

/// How keys are drawn: each shape brings out other cuts.
#[derive(Clone, Copy, Debug, PartialEq, Eq)]
pub enum Shape {
    Uniform,
    /// Few values, so that many keys are equal and domains offer no cut.
    Tied,
    Clustered,
    /// Rising in all domains at once: pools run full quickly and trees become deep.
    Ascending,
    Descending,
    /// The first key rises, the others are any, as signals come in. Only whole histories have it.
    Rising,
    /// At and near 0 and 4,294,967,294.
    Ends,
    /// For a while only one domain varies, so that cuts of different domains come to lie across each other.
    Lines,
    /// One of the others after the other.
    Mixed,
}

pub const SHAPES: [Shape; 8] = [
    Shape::Uniform,
    Shape::Tied,
    Shape::Clustered,
    Shape::Ascending,
    Shape::Descending,
    Shape::Ends,
    Shape::Lines,
    Shape::Mixed,
];

/// A source of points of one shape.
pub struct Keys {
    k: usize,
    shape: Shape,
    step: u32,
    values: u32,
    strides: Vec<u32>,
    centres: Vec<Vec<u32>>,
    /// The width of a cluster.
    pub spread: u32,
    base: Vec<u32>,
    varied: usize,
    width: u32,
    left: usize,
    mixed: Shape,
}

impl Keys {
    pub fn new(random: &mut Random, k: usize, shape: Shape) -> Keys {
        let centres = (0..random.from(2, 6))
            .map(|_| (0..k).map(|_| random.key()).collect())
            .collect();
        let stride = *random.pick(&[1, 3, 1000, 100_000]);
        Keys {
            k,
            shape,
            step: 0,
            values: match k {
                1 => random.from(16, 400) as u32,
                2 => random.from(4, 40) as u32,
                _ => random.from(2, 8) as u32,
            },
            strides: (0..k).map(|_| 1 + random.word_below(stride)).collect(),
            centres,
            spread: 40,
            base: vec![0; k],
            varied: 0,
            width: 1,
            left: 0,
            mixed: Shape::Uniform,
        }
    }

    pub fn point(&mut self, random: &mut Random) -> Vec<u32> {
        self.step = self.step.wrapping_add(1);
        let shape = match self.shape {
            Shape::Mixed => {
                if self.left == 0 {
                    self.mixed = SHAPES[random.below(SHAPES.len() - 1)];
                    self.left = random.from(10, 60);
                    self.line(random);
                }
                self.left -= 1;
                self.mixed
            }
            Shape::Lines => {
                if self.left == 0 {
                    self.left = random.from(10, 60);
                    self.line(random);
                }
                self.left -= 1;
                Shape::Lines
            }
            shape => shape,
        };
        let centre = random.below(self.centres.len());
        (0..self.k)
            .map(|d| match shape {
                Shape::Uniform | Shape::Mixed => random.key(),
                Shape::Tied => random.word_below(self.values),
                Shape::Clustered => self.centres[centre][d]
                    .saturating_add(random.word_below(self.spread))
                    .min(TOP),
                Shape::Rising if d > 0 => random.key(),
                Shape::Ascending | Shape::Rising => {
                    self.step.saturating_mul(self.strides[d]).min(TOP)
                }
                Shape::Descending => TOP - self.step.saturating_mul(self.strides[d]).min(TOP),
                Shape::Ends => match random.below(8) {
                    0 => 0,
                    1 => TOP,
                    2 => random.word_below(4),
                    3 => TOP - random.word_below(4),
                    4 | 5 => random.word_below(60),
                    _ => TOP - random.word_below(60),
                },
                Shape::Lines => {
                    if d == self.varied || random.once_in(12) {
                        random.word_below(self.width)
                    } else {
                        self.base[d]
                    }
                }
            })
            .collect()
    }

    /// The next line: another domain varies, the others stand still somewhere else.
    fn line(&mut self, random: &mut Random) {
        self.varied = (self.varied + self.k - 1) % self.k;
        self.width = *random.pick(&[100, 1000, 1_000_000, INFINITY]);
        if self.varied == 0 {
            self.base = (0..self.k).map(|_| random.word_below(self.width)).collect();
        }
    }
}
