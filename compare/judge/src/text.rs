//! A problem written by hand: words apart by white space, the rest of a line after # unread.

use totsu_core::MatType;

use crate::cone_list::Block;
use crate::groups;
use crate::problem::{Answer, Ending, Problem};
use crate::words::word;

struct Reader<'a> {
    words: Vec<&'a str>,
    at: usize,
}

impl<'a> Reader<'a> {
    fn next(&mut self, what: &str) -> Result<&'a str, String> {
        let word = self
            .words
            .get(self.at)
            .copied()
            .ok_or(format!("no {what}"))?;
        self.at += 1;
        Ok(word)
    }

    fn whole(&mut self, what: &str) -> Result<usize, String> {
        let word = self.next(what)?;
        let value = match word.strip_prefix("0x") {
            Some(hex) => usize::from_str_radix(hex, 16).ok(),
            None => word.parse().ok(),
        };
        value.ok_or(format!("{what}: {word}"))
    }

    /// A decimal, or a pattern after 0x.
    fn number(&mut self, what: &str) -> Result<f64, String> {
        let word = self.next(what)?;
        let value = match word.strip_prefix("0x") {
            Some(hex) => u64::from_str_radix(hex, 16).ok().map(f64::from_bits),
            None => word.parse().ok(),
        };
        value.ok_or(format!("{what}: {word}"))
    }

    fn numbers(&mut self, what: &str, count: usize) -> Result<Vec<f64>, String> {
        (0..count).map(|_| self.number(what)).collect()
    }
}

fn not_a_word(word: usize) -> String {
    format!("not a cone word: {word:#06x}")
}

/// Packed flag, n, m, number of cone words, the words, max_iter, sweep limit, eps_acc, eps_inf,
/// eps_zero, c, A, b.
pub fn read(text: &str) -> Result<Problem, String> {
    let lines = text
        .lines()
        .map(|line| line.split('#').next().unwrap_or(""));
    let mut from = Reader {
        words: lines.flat_map(str::split_whitespace).collect(),
        at: 0,
    };

    let packed = from.whole("packed flag")? != 0;
    let (n, m) = (from.whole("n")?, from.whole("m")?);
    if packed && n != m {
        return Err("packed, and m is not n".into());
    }
    let a_type = if packed {
        MatType::SymPack(n)
    } else {
        MatType::General(m, n)
    };
    let mut words = Vec::new();
    for _ in 0..from.whole("number of cone words")? {
        let word = from.whole("cone word")?;
        words.push(u16::try_from(word).map_err(|_| not_a_word(word))?);
    }
    let plain = groups::plain(&words).ok_or("a group is too deep, or runs past its list")?;
    let blocks = plain
        .iter()
        .map(|word| Block::read(*word).ok_or(not_a_word(usize::from(*word))))
        .collect::<Result<Vec<Block>, String>>()?;
    if blocks.iter().map(|b| b.size).sum::<usize>() != m {
        return Err("the cone sizes don't sum to m".into());
    }
    let problem = Problem {
        a_type,
        blocks,
        max_iter: from.whole("max_iter")?,
        sweep_limit: from.whole("sweep limit")?,
        eps_acc: from.number("eps_acc")?,
        eps_inf: from.number("eps_inf")?,
        eps_zero: from.number("eps_zero")?,
        edition: 1,
        c: from.numbers("c", n)?,
        a: from.numbers("A", a_type.len())?,
        b: from.numbers("b", m)?,
    };
    if from.at < from.words.len() {
        return Err(format!("left over: {}", from.words[from.at]));
    }
    Ok(problem)
}

/// The ending's name, k and q; its criteria, or the failed block; then x and y, one a line.
pub fn write(problem: &Problem, answer: &Answer) -> String {
    let mut lines = vec![format!(
        "{} {} {}",
        answer.ending.name(),
        answer.k,
        answer.q
    )];
    match answer.ending {
        Ending::ConeFailure(block) => lines.push(format!("block {block}")),
        _ => {
            let criteria = answer.ending.criteria().iter();
            let hex: Vec<String> = criteria.map(|c| format!("{:016x}", word(*c))).collect();
            lines.push(format!("criteria {}", hex.join(" ")));
        }
    }
    let (x, rest) = answer.work.split_at(problem.n());
    for (name, part) in [("x", x), ("y", &rest[..problem.m()])] {
        lines.extend(
            part.iter()
                .map(|v| format!("{name} {:016x} {v:e}", word(*v))),
        );
    }
    lines.join("\n") + "\n"
}

#[cfg(test)]
mod tests {
    use super::*;

    fn blocks(words: &str) -> Result<Vec<u16>, String> {
        let text = format!("0 0 2 {words} 1 64 0 0 0 1 1");
        read(&text).map(|p| p.blocks.iter().map(|b| b.word()).collect())
    }

    #[test]
    fn lists_in_groups() {
        assert_eq!(blocks("1 0x2002"), Ok(vec![0x2002]));
        assert_eq!(blocks("3 0xe002 0xe000 0x2002"), Ok(vec![0x2002]));
        assert!(blocks("2 0xe002 0x2002").is_err_and(|why| why.contains("group")));
        assert!(blocks("2 0xe001 0xa002").is_err_and(|why| why.contains("0xa002")));
    }
}
