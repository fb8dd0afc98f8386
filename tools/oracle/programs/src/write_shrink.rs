//! A smaller circuit on which writers still differ: gates, latches, roots and justice sets are taken away, and numbers made smaller, as long as they do.
use crate::write_words::Given;

pub fn smallest(mut given: Given, differ: impl Fn(&Given) -> bool) -> Given {
    while let Some(smaller) = candidates(&given).into_iter().find(|candidate| differ(candidate)) {
        given = smaller;
    }
    given
}

/// How many words there are, and their sum: each step makes this less.
fn weight(given: &Given) -> (usize, u64) {
    let lists = [&given.counts, &given.nexts, &given.resets, &given.gates, &given.sizes, &given.roots];
    let sum = lists.iter().flat_map(|list| list.iter()).map(|&word| word as u64).sum::<u64>();
    (lists.iter().map(|list| list.len()).sum(), sum + given.inputs as u64)
}

fn candidates(given: &Given) -> Vec<Given> {
    let mut all = vec![];
    let mut with = |change: &dyn Fn(&mut Given)| {
        let mut other = given.clone();
        change(&mut other);
        all.push(other);
    };
    // halves and single words of each list
    for list in 0..6 {
        let length = lists(&mut given.clone())[list].len();
        let mut part = length.div_ceil(2);
        while part > 0 {
            for start in (0..=length - part).step_by(part).take(60) {
                with(&|other| drop(lists(other)[list].drain(start..start + part)));
            }
            part /= 2;
        }
    }
    // a latch with its reset, and with its variable too
    for latch in (0..given.nexts.len().min(given.resets.len())).take(60) {
        with(&|other| {
            other.nexts.remove(latch);
            other.resets.remove(latch);
        });
        with(&|other| {
            other.nexts.remove(latch);
            other.resets.remove(latch);
            other.resets[latch..].iter_mut().filter(|reset| **reset > 1).for_each(|reset| *reset -= 2);
            let lists = [&mut other.nexts, &mut other.gates, &mut other.roots];
            lists.into_iter().flatten().for_each(|word| *word = word.saturating_sub(2));
        });
    }
    // a root with its count, a justice literal with its size, a gate with its variable
    let mut start = 0;
    for (kind, &count) in given.counts.iter().enumerate() {
        for root in start..start + (count as usize).min(8) {
            if root < given.roots.len() {
                with(&|other| {
                    other.counts[kind] -= 1;
                    other.roots.remove(root);
                    if let (4, Some(size)) = (kind, other.sizes.iter_mut().find(|size| **size > 0)) {
                        *size -= 1;
                    }
                });
            }
        }
        start += count as usize;
    }
    for gate in (0..given.gates.len() / 2).take(60) {
        with(&|other| drop(other.gates.drain(2 * gate..2 * gate + 2)));
        with(&|other| {
            let code = (other.first_code() + 2 * gate as u64) as u32;
            other.gates.drain(2 * gate..2 * gate + 2);
            let lists = [&mut other.nexts, &mut other.gates, &mut other.roots];
            lists.into_iter().flatten().filter(|word| **word >= code).for_each(|word| *word -= 2);
        });
    }
    // numbers that are smaller, and all codes with an input away; where there is none the steps below are longer
    for less in [given.inputs, given.inputs / 2, given.inputs.min(1)] {
        if less == 0 {
            continue;
        }
        let twice = less.saturating_mul(2);
        with(&|other| other.inputs = other.inputs.saturating_sub(less));
        with(&|other| {
            other.inputs = other.inputs.saturating_sub(less);
            other.resets.iter_mut().filter(|reset| **reset > 1).for_each(|reset| *reset = reset.saturating_sub(twice));
            let lists = [&mut other.nexts, &mut other.gates, &mut other.roots];
            lists.into_iter().flatten().for_each(|word| *word = word.saturating_sub(twice));
        });
    }
    for list in 0..6 {
        for at in 0..lists(&mut given.clone())[list].len().min(60) {
            for less in [u32::MAX, 1 << 31, 128, 2, 1] {
                with(&|other| {
                    let word = &mut lists(other)[list][at];
                    *word = word.saturating_sub(less);
                });
                with(&|other| {
                    let word = &mut lists(other)[list][at];
                    *word /= 2;
                });
            }
        }
    }
    all.retain(|candidate| weight(candidate) < weight(given));
    all
}

fn lists(given: &mut Given) -> [&mut Vec<u32>; 6] {
    [&mut given.counts, &mut given.nexts, &mut given.resets, &mut given.gates, &mut given.sizes, &mut given.roots]
}
