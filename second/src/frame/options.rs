//! The options of a comparison.

/// The options of a comparison whose mistakes are of one kind.
pub struct Options<M> {
    pub seed: u64,
    /// How many cases are asked for; none for as many as the quotas need.
    pub cases: Option<u64>,
    pub threads: usize,
    pub mistake: Option<(&'static str, M)>,
}

impl<M: Copy> Options<M> {
    /// Reads options; `cases` is the name of the one for the count.
    pub fn read(words: &[&str], cases: &str, mistakes: &[(&'static str, M)]) -> Option<Self> {
        let mut options = Options { seed: 1, cases: None, threads: 2, mistake: None };
        for two in words.chunks(2) {
            let [name, value] = two else { return None };
            match *name {
                "--seed" => options.seed = value.parse().ok()?,
                "--threads" => options.threads = value.parse().ok()?,
                "--mistake" => {
                    options.mistake = Some(*mistakes.iter().find(|(name, _)| name == value)?);
                }
                name if name == cases => {
                    options.cases = Some(value.parse().ok().filter(|&cases| cases > 0)?);
                }
                _ => return None,
            }
        }
        Some(options)
    }

    pub fn mistake(&self) -> Option<M> {
        self.mistake.map(|(_, mistake)| mistake)
    }
}
