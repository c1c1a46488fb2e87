//! What the tests of the parts share.

/// The lines after the head: the keyword and the fields of each.
pub fn records(text: &str) -> Vec<(&str, Vec<&str>)> {
    text.lines()
        .skip_while(|line| line.starts_with('#'))
        .map(|line| {
            let mut fields = line.split(' ');
            (fields.next().unwrap_or_default(), fields.collect())
        })
        .collect()
}
