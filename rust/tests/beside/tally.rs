//! How often each answer came, so that a test can say that it tried them all.

pub struct Tally([u32; 256]);

impl Tally {
    pub fn new() -> Tally {
        Tally([0; 256])
    }

    pub fn count(&mut self, answer: u8) {
        self.0[usize::from(answer)] += 1;
    }

    pub fn times(&self, answer: u8) -> u32 {
        self.0[usize::from(answer)]
    }

    pub fn add(&mut self, other: &Tally) {
        for (times, more) in self.0.iter_mut().zip(other.0) {
            *times += more;
        }
    }

    pub fn assert_all(&self, answers: &[u8], least: u32) {
        for &answer in answers {
            let times = self.times(answer);
            assert!(times >= least, "answer {answer} came {times} times only");
        }
    }

    /// These answers came, and no others.
    pub fn assert_only(&self, answers: &[u8]) {
        self.assert_all(answers, 1);
        for answer in 0..=255 {
            assert!(answers.contains(&answer) || self.times(answer) == 0, "answer {answer} came");
        }
    }
}
