//! A cone list by request (viii) of document 02: a word of kind 7 is a group, and its size is the number of following words that
//! belong to it. A list is read item by item, and an item that is a group is read as a list.

/// The kind of a group.
pub const GROUP: u16 = 7;

/// At most so many groups stand one in another.
pub const DEEPEST: usize = 8;

/// The plain words of a list, in order; none if a group is too deep or runs past the list that it stands in.
pub fn plain(words: &[u16]) -> Option<Vec<u16>> {
    let mut met = Vec::new();
    read_list(words, 0, &mut met)?;
    Some(met)
}

/// Reads a list that stands in so many groups: its plain words are added to those met.
fn read_list(words: &[u16], depth: usize, met: &mut Vec<u16>) -> Option<()> {
    let mut left = words;
    while let Some((first, after)) = left.split_first() {
        left = read_item(*first, after, depth, met)?;
    }
    Some(())
}

/// Reads an item of such a list, its first word and what follows in the list: what is left after it.
fn read_item<'a>(
    first: u16,
    after: &'a [u16],
    depth: usize,
    met: &mut Vec<u16>,
) -> Option<&'a [u16]> {
    if first >> 13 != GROUP {
        met.push(first);
        return Some(after);
    }
    let size = usize::from(first & 0x1fff);
    if depth == DEEPEST || size > after.len() {
        return None;
    }
    let (inner, after) = after.split_at(size);
    read_list(inner, depth + 1, met)?;
    Some(after)
}

#[cfg(test)]
mod tests {
    use super::*;

    /// The group words of so many groups, one in another, the last of them with so many words.
    fn chain(groups: u16, last: u16) -> Vec<u16> {
        (0..groups).rev().map(|i| 0xe000 + i + last).collect()
    }

    fn is_plain(words: &[u16], expected: &[u16]) {
        assert_eq!(plain(words).as_deref(), Some(expected), "{words:04x?}");
    }

    fn is_bad(words: &[u16]) {
        assert_eq!(plain(words), None, "{words:04x?}");
    }

    #[test]
    fn lists_without_a_group() {
        is_plain(&[], &[]);
        // Kinds 5 and 6 are no groups; that they are refused is for the reader of blocks.
        is_plain(&[0x2001, 0xa001, 0xc001], &[0x2001, 0xa001, 0xc001]);
    }

    #[test]
    fn a_size_counts_all_words_that_follow() {
        is_plain(&[0xe002, 0x2001, 0x4002], &[0x2001, 0x4002]);
        is_plain(&[0xe001, 0x2001, 0x4002], &[0x2001, 0x4002]);
        is_plain(&[0x2001, 0xe001, 0x4002], &[0x2001, 0x4002]);
        // The inner group's word and its words are counted.
        is_plain(&[0xe003, 0xe001, 0x2001, 0x4002], &[0x2001, 0x4002]);
        is_plain(&[0xe002, 0xe001, 0x2001, 0x4002], &[0x2001, 0x4002]);
    }

    #[test]
    fn empty_groups() {
        is_plain(&[0xe000], &[]);
        is_plain(&[0xe000, 0xe000, 0x2001, 0xe000], &[0x2001]);
        is_plain(&[0xe002, 0xe000, 0x2001], &[0x2001]);
        is_plain(&[0xe002, 0xe001, 0xe000], &[]);
    }

    #[test]
    fn past_the_whole_list() {
        is_bad(&[0xe001]);
        is_bad(&[0xe002, 0x2001]);
        is_bad(&[0xffff, 0x2001]);
        is_bad(&[0x2001, 0xffff]);
        is_bad(&[0xe001, 0xe001]);
    }

    /// Words remain after the enclosing list, enough for the group that runs past it.
    #[test]
    fn past_the_enclosing_list_alone() {
        is_bad(&[0xe001, 0xe001, 0x2001]);
        is_bad(&[0xe002, 0xe002, 0x2001, 0x4002]);
        is_bad(&[0xe002, 0x2001, 0xe001, 0x4002]);
        is_bad(&[0xe003, 0xe001, 0xe001, 0x2001, 0x4002]);
    }

    #[test]
    fn eight_deep_and_no_deeper() {
        for groups in 1..=8 {
            is_plain(&[chain(groups, 1), vec![0x2001]].concat(), &[0x2001]);
            is_plain(&[chain(groups, 0), vec![0x2001]].concat(), &[0x2001]);
        }
        is_bad(&[chain(9, 1), vec![0x2001]].concat());
        is_bad(&[chain(9, 0), vec![0x2001]].concat());
        is_bad(&chain(9, 0));
        is_bad(&chain(100, 0));
    }

    /// Eight deep, out of all groups, and eight deep again.
    #[test]
    fn groups_side_by_side() {
        let once = [chain(8, 1), vec![0x2001]].concat();
        is_plain(&once.repeat(3), &[0x2001; 3]);
        is_plain(&chain(8, 0).repeat(16), &[]);
        // Eight empty groups in a group of the seventh depth.
        let beside = [chain(7, 8), vec![0xe000; 8], vec![0x2001]].concat();
        is_plain(&beside, &[0x2001]);
        is_bad(&[chain(8, 1), vec![0xe000, 0x2001]].concat());
    }
}
