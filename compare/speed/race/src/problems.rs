//! The problems that are timed. Their numbers are drawn between -1 and 1, always the same ones.

use judge::cone_list::Block;
use judge::problem::Problem;
use judge::random::Random;
use totsu_core::MatType;

const SEED: u64 = 5;

#[derive(Clone, Copy, PartialEq)]
pub enum Form {
    Dense,
    Packed,
    /// Dense, half of the columns in each slice.
    Split,
}

pub struct Case {
    pub form: Form,
    pub n: usize,
    pub m: usize,
    pub words: Vec<u16>,
    /// The blocks' names.
    cones: String,
}

fn unknown(word: &str) -> ! {
    eprintln!("no such problem: {word}");
    std::process::exit(2)
}

impl Case {
    /// One semidefinite block of so many places; the rest is nonnegative.
    fn new(form: Form, n: usize, m: usize, psd: usize) -> Case {
        let mut words = Vec::new();
        if psd > 0 {
            words.push(0x8000 | psd as u16);
        }
        if psd < m {
            words.push(0x2000 | (m - psd) as u16);
        }
        let cones = match psd {
            0 => "nonnegative".to_string(),
            places if places == m => format!("semidefinite of {places}"),
            places => format!("semidefinite of {places}, nonnegative"),
        };
        Case { form, n, m, words, cones }
    }

    /// So many second-order blocks, each of so many places.
    fn second_order(n: usize, blocks: usize, places: usize) -> Case {
        Case {
            form: Form::Dense,
            n,
            m: blocks * places,
            words: vec![0x4000 | places as u16; blocks],
            cones: format!("{blocks} second-order of {places}"),
        }
    }

    /// vi, dense:N:M, split:N:M, packed:N, psd:N:PLACES or soc:N:BLOCKS:PLACES.
    pub fn read(word: &str) -> Case {
        let parts: Vec<&str> = word.split(':').collect();
        let size = |k: usize| parts.get(k).and_then(|s| s.parse().ok()).unwrap_or_else(|| unknown(word));
        match parts[0] {
            "vi" => Case::new(Form::Dense, 64, 128, 45),
            "dense" => Case::new(Form::Dense, size(1), size(2), 0),
            "split" => Case::new(Form::Split, size(1), size(2), 0),
            "packed" => Case::new(Form::Packed, size(1), size(1), 0),
            "psd" => Case::new(Form::Dense, size(1), size(2), size(2)),
            "soc" => Case::second_order(size(1), size(2), size(3)),
            _ => unknown(word),
        }
    }

    pub fn name(&self) -> String {
        let sizes = match self.form {
            Form::Packed => format!("packed of order {}", self.n),
            _ if self.n == self.m => format!("n = m = {}", self.n),
            _ => format!("n = {}, m = {}", self.n, self.m),
        };
        format!("{sizes}, {}{}", self.cones, if self.form == Form::Split { ", in two slices" } else { "" })
    }

    pub fn problem(&self, steps: u64) -> Problem {
        let mut random = Random::new(SEED);
        let mut drawn = |count: usize| -> Vec<f64> {
            (0..count).map(|_| (random.word() >> 11) as f64 / (1u64 << 52) as f64 - 1.0).collect()
        };
        let packed = self.form == Form::Packed;
        Problem {
            a_type: if packed { MatType::SymPack(self.n) } else { MatType::General(self.m, self.n) },
            c: drawn(self.n),
            a: drawn(if packed { self.n * (self.n + 1) / 2 } else { self.m * self.n }),
            b: drawn(self.m),
            blocks: self.words.iter().map(|w| Block::read(*w).unwrap()).collect(),
            max_iter: steps as usize,
            sweep_limit: 64,
            eps_acc: 0.0,
            eps_inf: 0.0,
            eps_zero: 1e-12,
            edition: 1,
        }
    }
}

/// Request (vi)'s first, then small ones, a scale, a packed one, blocks, and two slices.
pub fn all() -> Vec<Case> {
    let words = "vi dense:3:8 dense:12:12 dense:16:64 dense:64:64 dense:128:128 dense:256:256 dense:512:512 dense:1024:1024 dense:3:1024 \
                 packed:3 packed:12 packed:32 packed:128 packed:1024 psd:4:6 psd:8:45 psd:8:171 psd:2:990 soc:3:16:4 split:3:8 split:64:128 split:128:128 \
                 split:1024:1024";
    words.split_whitespace().map(Case::read).collect()
}
