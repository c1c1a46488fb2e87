//! The stored inputs: a file of text, one input in each line, two hexadecimal digits for each byte.

/// The stored inputs. `tools/fuzz.py keep` writes the file.
const STORED: &str = include_str!("../../fuzz/corpus.txt");

/// The stored inputs.
///
/// # Panics
/// If the file has another form.
#[must_use]
pub fn stored() -> Vec<Vec<u8>> {
    let inputs = STORED.lines().map(|line| read(line).expect(line));
    inputs.collect()
}

/// The input of a line.
#[must_use]
pub fn read(line: &str) -> Option<Vec<u8>> {
    let (pairs, rest) = line.as_bytes().as_chunks::<2>();
    let byte = |pair: &[u8; 2]| {
        let digits = str::from_utf8(pair).ok()?;
        let are_digits = pair.iter().all(u8::is_ascii_hexdigit);
        u8::from_str_radix(digits, 16).ok().filter(|_| are_digits)
    };
    rest.is_empty().then(|| pairs.iter().map(byte).collect())?
}

#[cfg(test)]
mod tests {
    use super::*;

    #[test]
    fn a_line_is_read_in_pairs_of_digits() {
        assert_eq!(read("00ff7A"), Some(vec![0, 255, 0x7A]));
        assert_eq!(read(""), Some(Vec::new()));
        assert_eq!([read("0"), read("0g"), read("+1")], [None, None, None]);
    }
}
