//! Classes to search by: some that a reader sees through, and drawn ones.

use super::{changed, fibonacci, repeated, Random, Trial};
use crate::oracle::{identity, CLASSES};
use poqewan::Pattern;

/// The class of each value.
pub type Classes = [u8; CLASSES];

/// Small and capital letters share a class; every other value has its own.
pub fn letters() -> Classes {
    identity().map(|value| value.to_ascii_lowercase())
}

/// Sixteen directions, each of sixteen levels, and 0 alone.
pub fn directions() -> Classes {
    identity().map(|value| if value == 0 { 0 } else { value / 16 + 1 })
}

/// Every value but 0 has one class.
pub fn one_but_0() -> Classes {
    identity().map(|value| value.min(1))
}

/// Each value has its own class, but this one has another's.
pub fn joined(value: u8, other: u8) -> Classes {
    let mut classes = identity();
    classes[usize::from(value)] = other;
    classes
}

/// c has the class of b.
pub fn c_in_b() -> Classes {
    joined(b'c', b'b')
}

/// All values in a random order.
pub fn shuffled(random: &mut Random) -> Classes {
    let mut values = identity();
    for end in (1..CLASSES).rev() {
        values.swap(end, random.below(end + 1));
    }
    values
}

/// The pattern with other classes in place of its own.
pub fn with_classes(pattern: &Pattern, classes: Classes) -> Pattern {
    Pattern {
        classes,
        ..*pattern
    }
}

/// How long the texts are, at least.
const TEXT: usize = 700;

/// Classes, with the values of each.
pub struct Drawn {
    pub classes: Classes,
    /// For each value, those of its class.
    pub fellows: Vec<Vec<u8>>,
}

impl Drawn {
    pub fn new(classes: Classes) -> Self {
        let of_class = |class| (0..=255).filter(move |&v| classes[usize::from(v)] == class);
        let fellows = classes.map(|class| of_class(class).collect()).to_vec();
        Self { classes, fellows }
    }

    /// So many classes, all of them used, with 0 alone in its own. The class of 0 is 0, or else 0 is
    /// the class of another value.
    pub fn of(number: usize, zero_is_0: bool, random: &mut Random) -> Self {
        let mut names = shuffled(random);
        let place = names.iter().position(|&name| name == 0);
        names.swap(place.expect("all are there"), usize::from(!zero_is_0));

        let mut classes = [names[0]; CLASSES];
        let others = shuffled(random).into_iter().filter(|&value| value != 0);
        for (i, value) in others.enumerate() {
            let class = match i + 1 {
                class if class < number => class,
                _ => 1 + random.below(number - 1),
            };
            classes[usize::from(value)] = names[class];
        }

        let mut used = classes.to_vec();
        used.sort_unstable();
        used.dedup();
        assert_eq!(used.len(), number);
        assert!(classes.contains(&0));
        assert_eq!(classes[0] == 0, zero_is_0);
        assert!(!classes[1..].contains(&classes[0]));
        Self::new(classes)
    }

    /// The word with each byte replaced by one of its class.
    pub fn disguised(&self, word: &[u8], random: &mut Random) -> Vec<u8> {
        word.iter()
            .map(|&byte| {
                let fellows = &self.fellows[usize::from(byte)];
                fellows[random.below(fellows.len())]
            })
            .collect()
    }

    /// A few values other than 0. Where there are two of one class, two of them share one.
    fn few_values(&self, random: &mut Random) -> Vec<u8> {
        let mut values = random.word(&identity()[1..], 3);
        let sharing: Vec<u8> = (1..=255)
            .filter(|&value| self.fellows[usize::from(value)].len() > 1)
            .collect();
        if !sharing.is_empty() {
            let value = random.word(&sharing, 1)[0];
            let fellows = &self.fellows[usize::from(value)];
            values.extend(fellows.iter().take(2));
        }
        values
    }

    /// Patterns of a length, over all values but 0 and over a few: random ones, and in disguise
    /// powers of short words, whole and with a byte changed, and Fibonacci words.
    pub fn patterns(&self, len: usize, random: &mut Random) -> Vec<Vec<u8>> {
        let mut patterns = Vec::new();
        for values in [identity()[1..].to_vec(), self.few_values(random)] {
            let root_len = 1 + random.below(6);
            let power = repeated(&random.word(&values, root_len), len);
            let other = random.word(&values, 1)[0];
            let nearly = changed(&power, random.below(len), other);
            let two = random.word(&values, 2);
            let fibonacci: Vec<u8> = fibonacci(len)
                .iter()
                .map(|letter| two[usize::from(letter - b'a')])
                .collect();

            patterns.push(random.word(&values, len));
            patterns.extend([power, nearly, fibonacci].map(|word| self.disguised(&word, random)));
        }
        patterns
    }

    /// Texts for a pattern: in disguise, pieces of its repetitions, and copies of it with a byte
    /// changed for any; any values; and such pieces with some bytes 0 among them.
    pub fn texts(&self, bytes: &[u8], random: &mut Random) -> [Vec<u8>; 4] {
        let pieces = self.pieces(bytes, random);

        let mut near_misses = Vec::new();
        while near_misses.len() < TEXT {
            let copy = changed(bytes, random.below(bytes.len()), random.number() as u8);
            near_misses.extend(self.disguised(&copy, random));
        }

        let mut segments = self.pieces(bytes, random);
        for _ in 0..4 {
            segments[random.below(TEXT)] = 0;
        }
        [
            pieces,
            near_misses,
            random.word(&identity(), TEXT),
            segments,
        ]
    }

    fn pieces(&self, bytes: &[u8], random: &mut Random) -> Vec<u8> {
        let mut text = Vec::new();
        while text.len() < TEXT {
            let from = random.below(bytes.len());
            let to = from + 1 + random.below(2 * bytes.len());
            text.extend(self.disguised(&repeated(bytes, to)[from..], random));
        }
        text
    }
}

/// Patterns of drawn classes, each beside one in disguise: of other bytes with the same classes.
pub fn in_disguise(seed: u64, mut check: impl FnMut(&Drawn, &[u8], [&mut Trial; 2], &mut Random)) {
    let mut random = Random::new(seed);
    for number in [2, 3, 16, 64, 200] {
        let drawn = Drawn::of(number, number % 2 == 0, &mut random);
        for len in [1, 2, 7, 32, 256] {
            for bytes in drawn.patterns(len, &mut random) {
                let disguised = drawn.disguised(&bytes, &mut random);
                let mut trial = Trial::with_classes(&bytes, &drawn.classes);
                let mut other = Trial::with_classes(&disguised, &drawn.classes);
                check(&drawn, &bytes, [&mut trial, &mut other], &mut random);
            }
        }
    }
}
