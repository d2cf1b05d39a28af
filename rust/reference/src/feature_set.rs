//! Sets of features: feature i is bit i mod 64 of word i / 64.

/// A set of features below a fixed number N; all sets of one task have the same length.
#[derive(Clone, Debug, PartialEq, Eq)]
pub struct FeatureSet {
    words: Vec<u64>,
}

/// W: the words that N features take.
pub fn words_for(count: usize) -> usize {
    count.div_ceil(64)
}

impl FeatureSet {
    pub fn empty(count: usize) -> Self {
        FeatureSet {
            words: vec![0; words_for(count)],
        }
    }

    pub fn of(count: usize, members: &[usize]) -> Self {
        let mut set = FeatureSet::empty(count);
        for member in members {
            set.insert(*member);
        }
        set
    }

    pub fn from_words(words: &[u64]) -> Self {
        FeatureSet {
            words: words.to_vec(),
        }
    }

    pub fn words(&self) -> &[u64] {
        &self.words
    }

    pub fn contains(&self, member: usize) -> bool {
        self.words[member / 64] >> (member % 64) & 1 == 1
    }

    pub fn insert(&mut self, member: usize) {
        self.words[member / 64] |= 1 << (member % 64);
    }

    pub fn remove(&mut self, member: usize) {
        self.words[member / 64] &= !(1 << (member % 64));
    }

    pub fn toggle(&mut self, member: usize) {
        self.words[member / 64] ^= 1 << (member % 64);
    }

    /// The symmetric difference takes this set's place.
    pub fn combine(&mut self, other: &FeatureSet) {
        for (word, more) in self.words.iter_mut().zip(&other.words) {
            *word ^= more;
        }
    }

    /// Whether the two sets share an odd number of features.
    pub fn meets_oddly(&self, other: &FeatureSet) -> bool {
        let shared = self
            .words
            .iter()
            .zip(&other.words)
            .fold(0, |sum, (left, right)| sum ^ (left & right));
        shared.count_ones() % 2 == 1
    }

    pub fn is_empty(&self) -> bool {
        self.words.iter().all(|word| *word == 0)
    }

    pub fn least(&self) -> Option<usize> {
        let place = self.words.iter().position(|word| *word != 0)?;
        Some(64 * place + self.words[place].trailing_zeros() as usize)
    }

    pub fn highest(&self) -> Option<usize> {
        let place = self.words.iter().rposition(|word| *word != 0)?;
        Some(64 * place + 63 - self.words[place].leading_zeros() as usize)
    }

    /// All members, increasing.
    pub fn members(&self) -> Vec<usize> {
        let mut members = Vec::new();
        for (place, word) in self.words.iter().enumerate() {
            let mut left = *word;
            while left != 0 {
                members.push(64 * place + left.trailing_zeros() as usize);
                left &= left - 1;
            }
        }
        members
    }
}

impl Extend<usize> for FeatureSet {
    fn extend<Members: IntoIterator<Item = usize>>(&mut self, members: Members) {
        for member in members {
            self.insert(member);
        }
    }
}
