//! Well-known emoji sequences. Unicode's files emoji-zwj-sequences.txt and emoji-test.txt are not among the data files of
//! this repository; these are some of their sequences, and one tag flag beside them, written down by hand.

/// Families, roles, faces and animals, flags, tag flags, keycaps and modifier sequences, each by its code points.
const SEQUENCES: [&str; 72] = [
    "1F468 200D 1F469 200D 1F467 200D 1F466",
    "1F469 200D 2764 FE0F 200D 1F48B 200D 1F468",
    "1F469 200D 2764 FE0F 200D 1F469",
    "1F468 200D 2695 FE0F",
    "1F469 1F3FD 200D 2696 FE0F",
    "1F468 1F3FB 200D 2708 FE0F",
    "1F469 200D 1F4BB",
    "1F9D1 200D 1F680",
    "1F9D1 1F3FF 200D 1F692",
    "1F575 FE0F 200D 2642 FE0F",
    "1F575 1F3FC 200D 2640 FE0F",
    "1F3CC FE0F 200D 2640 FE0F",
    "26F9 FE0F 200D 2642 FE0F",
    "26F9 1F3FE 200D 2640 FE0F",
    "1F3CB FE0F 200D 2640 FE0F",
    "1F3F3 FE0F 200D 1F308",
    "1F3F3 FE0F 200D 26A7 FE0F",
    "1F3F4 200D 2620 FE0F",
    "1F441 FE0F 200D 1F5E8 FE0F",
    "1F43B 200D 2744 FE0F",
    "1F408 200D 2B1B",
    "1F415 200D 1F9BA",
    "1F426 200D 2B1B",
    "2764 FE0F 200D 1F525",
    "2764 FE0F 200D 1FA79",
    "1F62E 200D 1F4A8",
    "1F635 200D 1F4AB",
    "1F636 200D 1F32B FE0F",
    "1F9D1 200D 1F384",
    "1F9D1 200D 1F91D 200D 1F9D1",
    "1F9D1 1F3FB 200D 1F91D 200D 1F9D1 1F3FF",
    "1F469 1F3FB 200D 1F91D 200D 1F468 1F3FE",
    "1FAF1 1F3FB 200D 1FAF2 1F3FF",
    "1F468 200D 1F9B0",
    "1F9D4 200D 2642 FE0F",
    "1F470 1F3FD 200D 2640 FE0F",
    "1F9DA 200D 2640 FE0F",
    "1F9DE 200D 2642 FE0F",
    "1F46F 200D 2640 FE0F",
    "1F93C 200D 2642 FE0F",
    "1F937 1F3FC 200D 2642 FE0F",
    "1F486 200D 2640 FE0F",
    "1F1EF 1F1F5",
    "1F1FA 1F1F8",
    "1F1E9 1F1EA",
    "1F1EA 1F1FA",
    "1F1FA 1F1F3",
    "1F3F4 E0067 E0062 E0065 E006E E0067 E007F",
    "1F3F4 E0067 E0062 E0073 E0063 E0074 E007F",
    "1F3F4 E0067 E0062 E0077 E006C E0073 E007F",
    "1F3F4 E0075 E0073 E0074 E0078 E007F",
    "0023 FE0F 20E3",
    "002A FE0F 20E3",
    "0030 FE0F 20E3",
    "0031 FE0F 20E3",
    "0032 FE0F 20E3",
    "0033 FE0F 20E3",
    "0034 FE0F 20E3",
    "0035 FE0F 20E3",
    "0036 FE0F 20E3",
    "0037 FE0F 20E3",
    "0038 FE0F 20E3",
    "0039 FE0F 20E3",
    "261D 1F3FB",
    "270C 1F3FD",
    "1F44D 1F3FE",
    "1F590 1F3FC",
    "1F385 1F3FF",
    "270D 1F3FB",
    "1F574 1F3FB",
    "1F90C 1F3FC",
    "1F44B 1F3FF",
];

/// The sequences as texts.
pub fn well_known() -> impl Iterator<Item = String> {
    SEQUENCES.iter().filter_map(|points| sequence(points))
}

/// The text of code points that are parted by blanks, if each is one.
#[must_use]
pub fn sequence(points: &str) -> Option<String> {
    let character = |point| u32::from_str_radix(point, 16).ok().and_then(char::from_u32);
    points.split_whitespace().map(character).collect()
}
