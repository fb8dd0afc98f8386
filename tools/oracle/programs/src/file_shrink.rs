//! A smaller file on which readers still differ: bytes and whole lines are taken away, and counts made smaller with them, as long as they do.

/// The header's numbers that go down together when a part of the file goes: M with I, L or A; O; B; C; J; F; and none.
const TOGETHER: [&[usize]; 9] = [&[], &[1, 2], &[1, 3], &[1, 5], &[4], &[6], &[7], &[8], &[9]];

/// Those that do in a text, where M may be above the others.
const APART: [&[usize]; 4] = [&[1], &[2], &[3], &[5]];

pub fn smallest(mut bytes: Vec<u8>, differ: impl Fn(&[u8]) -> bool) -> Vec<u8> {
    while let Some(smaller) = candidates(&bytes).into_iter().find(|candidate| differ(candidate)) {
        bytes = smaller;
    }
    bytes
}

fn candidates(bytes: &[u8]) -> Vec<Vec<u8>> {
    let mut all = parts_away(bytes);
    let text = bytes.starts_with(b"aag ");
    all.extend(TOGETHER.iter().chain(APART.iter().filter(|_| text)).filter_map(|words| counted_down(bytes, words)).flat_map(|fewer| {
        let mut all = lines_away(&fewer);
        all.extend(gate_bytes_away(&fewer));
        all.push(fewer);
        all
    }));
    all.extend(last_count_away(bytes));
    all.extend(sources_away(bytes).into_iter().flatten());
    if text {
        all.extend(variables_down(bytes).into_iter().flatten());
    }
    all.extend(lower_bytes(bytes));
    // each is smaller: shorter, or as long and before it
    all.retain(|candidate| (candidate.len(), &candidate[..]) < (bytes.len(), bytes));
    all
}

/// Without half of the bytes, a quarter of them, and so on, down to each one.
fn parts_away(bytes: &[u8]) -> Vec<Vec<u8>> {
    let mut all = vec![];
    let mut length = bytes.len() / 2;
    while length > 0 {
        for start in (0..=bytes.len() - length).step_by(length) {
            all.push([&bytes[..start], &bytes[start + length..]].concat());
        }
        length /= 2;
    }
    all
}

/// Some numbers of the header one less, where all of them are there and above 0.
fn counted_down(bytes: &[u8], words: &[usize]) -> Option<Vec<u8>> {
    let end = bytes.iter().position(|&byte| byte == b'\n')?;
    let header = std::str::from_utf8(&bytes[..end]).ok()?;
    let mut parts: Vec<String> = header.split(' ').map(String::from).collect();
    for &word in words {
        let less = parts.get(word)?.parse::<u64>().ok()?.checked_sub(1)?;
        parts[word] = less.to_string();
    }
    Some([parts.join(" ").as_bytes(), &bytes[end..]].concat())
}

/// Without each of the lines behind the header.
fn lines_away(bytes: &[u8]) -> Vec<Vec<u8>> {
    let ends: Vec<usize> = (0..bytes.len()).filter(|&at| bytes[at] == b'\n').take(40).collect();
    ends.windows(2).map(|pair| [&bytes[..=pair[0]], &bytes[pair[1] + 1..]].concat()).collect()
}

/// Without one to four bytes in a row among the last forty, where the gates are.
fn gate_bytes_away(bytes: &[u8]) -> Vec<Vec<u8>> {
    let mut all = vec![];
    for start in bytes.len().saturating_sub(40)..bytes.len() {
        for end in start + 1..=bytes.len().min(start + 4) {
            all.push([&bytes[..start], &bytes[end..]].concat());
        }
    }
    all
}

/// Without the header's last count.
fn last_count_away(bytes: &[u8]) -> Option<Vec<u8>> {
    let end = bytes.iter().position(|&byte| byte == b'\n')?;
    let space = bytes[..end].iter().rposition(|&byte| byte == b' ')?;
    Some([&bytes[..space], &bytes[end..]].concat())
}

/// With fewer inputs, or without one latch: the resets that name a latch go down with it.
fn sources_away(bytes: &[u8]) -> Option<Vec<Vec<u8>>> {
    let end = bytes.iter().position(|&byte| byte == b'\n')?;
    let words: Vec<&str> = std::str::from_utf8(&bytes[..end]).ok()?.split(' ').collect();
    let count = |word: usize| words.get(word).and_then(|word| word.parse::<u64>().ok());
    let (top, inputs, latches) = (count(1)?, count(2)?, count(3).filter(|&latches| latches <= 40)? as usize);
    let mut lines: Vec<&[u8]> = bytes[end + 1..].splitn(latches + 1, |&byte| byte == b'\n').collect();
    let rest = lines.pop().filter(|_| lines.len() == latches)?;
    let without = |less: u64, gone: Option<usize>| {
        let fewer = less + gone.is_some() as u64;
        let mut header: Vec<String> = words.iter().map(|word| word.to_string()).collect();
        header[1] = top.checked_sub(fewer)?.to_string();
        header[2] = (inputs - less).to_string();
        header[3] = (latches - gone.is_some() as usize).to_string();
        let mut file = header.join(" ").into_bytes();
        for (index, line) in lines.iter().enumerate().filter(|&(index, _)| Some(index) != gone) {
            file.push(b'\n');
            let down = 2 * (less + gone.is_some_and(|gone| gone < index) as u64);
            let reset = std::str::from_utf8(line).ok().and_then(|line| line.split_once(' ')).and_then(|(next, reset)| Some((next, reset.parse::<u64>().ok()?)));
            match reset {
                Some((next, reset)) if reset > 1 => file.extend(format!("{next} {}", reset.saturating_sub(down)).bytes()),
                _ => file.extend(*line),
            }
        }
        Some([&file[..], b"\n", rest].concat())
    };
    let inputs_away = [inputs, inputs / 2, 1].into_iter().filter(|&less| 0 < less && less <= inputs).filter_map(|less| without(less, None));
    Some(inputs_away.chain((0..latches).filter_map(|latch| without(0, Some(latch)))).collect())
}

/// Each byte a lower one.
fn lower_bytes(bytes: &[u8]) -> Vec<Vec<u8>> {
    let mut all = vec![];
    for at in 0..bytes.len().min(400) {
        for lower in [0, b'0', bytes[at].wrapping_sub(1)] {
            if lower < bytes[at] {
                let mut candidate = bytes.to_vec();
                candidate[at] = lower;
                all.push(candidate);
            }
        }
    }
    all
}

/// Each variable behind a text's header in the place of the one before it.
fn variables_down(bytes: &[u8]) -> Option<Vec<Vec<u8>>> {
    let end = bytes.iter().position(|&byte| byte == b'\n')?;
    let (header, lines) = std::str::from_utf8(bytes).ok()?.split_at(end);
    let down = |variable: u64| {
        let word = |word: &str| match word.trim_end().parse::<u64>() {
            Ok(code) if code / 2 == variable => format!("{}{}", code - 2, &word[word.trim_end().len()..]),
            _ => word.to_string(),
        };
        let lines = lines.split_inclusive([' ', '\n']).map(word).collect::<String>();
        format!("{header}{lines}").into_bytes()
    };
    Some((2..20).map(down).collect())
}
