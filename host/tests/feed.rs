//! The reading of document 02, (iii), by its sentences, and beside the crate for threads cut in every way.

use tilghorz_comparison::calls::{Answer, Calls, Reference};
use tilghorz_comparison::comparison::policies::Policy;
use tilghorz_comparison::comparison::{feed_case, feed_lists};
use tilghorz_comparison::reference::calls::LONGEST_TEXT;
use tilghorz_comparison::reference::feed::{Feed, Taken};
use tilghorz_comparison::reference::kept::FEED_BYTES;
use tilghorz_comparison::reference::policy::default_policy;

/// A feed under the default policy that has taken some pieces.
fn fed(pieces: &[&[u8]]) -> Feed {
    let begun = Feed::begin(default_policy()).expect("a policy");
    pieces
        .iter()
        .fold(begun, |feed, piece| feed.piece(piece).expect("taken").feed)
}

/// What a call writes in just the room that it wants.
fn written(taken: &Taken) -> Vec<u8> {
    taken.draft.with_room(taken.draft.wanted()).1.to_vec()
}

/// The refusal of a piece.
fn refused(feed: &Feed, piece: &[u8]) -> Option<Answer> {
    feed.piece(piece).err()
}

#[test]
fn all_is_written_but_an_unfinished_character_and_a_last_base_with_its_selectors() {
    let after = |text: &str| written(&fed(&[]).piece(text.as_bytes()).expect("taken"));
    assert_eq!(after("ab"), b"ab");
    // 2764 and 31 have variation entries, 1F62E has none.
    assert_eq!(after("ab\u{2764}"), b"ab");
    assert_eq!(after("1\u{FE0E}\u{FE0F}"), b"");
    assert_eq!(after("\u{1F62E}\u{FE0F}"), "\u{1F62E}".as_bytes());
    assert_eq!(after("\u{2764}a"), "\u{2764}\u{FE0E}a".as_bytes());
    // The policy would leave this base alone, and it waits too.
    assert_eq!(after("\u{231A}"), b"");
    let unfinished = fed(&[]).piece(b"a\xE2\x9D").expect("taken");
    assert_eq!(written(&unfinished), b"a");
    assert_eq!(unfinished.feed.unfinished(), b"\xE2\x9D");
    let heart = fed(&[b"a\xE2\x9D", b"\xA4"]);
    assert_eq!(
        written(&heart.end().expect("an end")),
        "\u{2764}\u{FE0E}".as_bytes()
    );
}

#[test]
fn an_ill_formed_place_is_told_by_its_offset_in_the_thread() {
    let feed = fed(&[b"abc", b"\xE2"]);
    assert_eq!(refused(&feed, b"A"), Some(Answer::new(3, 3)));
    assert_eq!(refused(&feed, b"\x9D\xA4 \xFF"), Some(Answer::new(3, 7)));
    // The feed is as it was, so that another piece can finish the character.
    assert!(feed.piece(b"\x9D\xA4").is_ok());
    for at_once in [
        &b"\xE0\x80"[..],
        b"\xED\xA0",
        b"\xF4\x90",
        b"\xF0\x80",
        b"\xC0",
        b"\xF5",
        b"\x80",
    ] {
        assert_eq!(refused(&fed(&[]), at_once), Some(Answer::new(3, 0)));
        let (lead, rest) = at_once.split_at(1);
        if !rest.is_empty() {
            assert_eq!(refused(&fed(&[b"a", lead]), rest), Some(Answer::new(3, 1)));
        }
    }
}

#[test]
fn the_room_is_tested_by_the_figure() {
    for (piece, wanted) in [(&b"abc"[..], 28), (b"", 16), (b"\xE2\x9D\xA4", 28)] {
        let taken = fed(&[b"a"]).piece(piece).expect("taken");
        let too_short = taken.draft.with_room(wanted - 1);
        assert_eq!(too_short, (Answer::new(8, wanted as u64), &[][..]));
        assert_eq!(taken.draft.with_room(wanted).0.number, Answer::DONE);
    }
    let end = fed(&[b"a"]).end().expect("an end");
    assert_eq!(end.draft.with_room(15).0, Answer::new(8, 16));
    assert_eq!(end.draft.with_room(16).0, Answer::new(Answer::DONE, 0));
}

#[test]
fn after_the_end_all_but_the_totals_is_refused_first() {
    let feed = fed(&["1\u{FE0E}".as_bytes()]).end().expect("an end").feed;
    let ended = Some(Answer::new(9, 0));
    assert_eq!(refused(&feed, b"a"), ended);
    assert_eq!(refused(&feed, b"\xFF"), ended);
    assert_eq!(refused(&feed, &vec![b'a'; LONGEST_TEXT + 1]), ended);
    assert_eq!(feed.end().err(), ended);
    assert_eq!(feed.totals(), [0, 0, 0, 0, 0, 0, 1, 0]);
    let inside = fed(&[b"\xE2"]).end().err();
    assert_eq!(inside, Some(Answer::new(10, 0)));
}

#[test]
fn the_limit_counts_the_bytes_of_an_unfinished_character() {
    let most = vec![b'a'; LONGEST_TEXT - 1];
    let feed = fed(&[&most, b"\xE2"]);
    assert_eq!(refused(&feed, b"\x9D"), Some(Answer::new(1, 0)));
    assert_eq!(refused(&feed, b"\xFF"), Some(Answer::new(1, 0)));
    assert_eq!(refused(&feed, b""), None);
}

#[test]
fn a_thread_cut_in_every_way_is_formatted_as_the_crate_formats_it() {
    let policy = Policy::default_policy();
    for text in [
        "1\u{FE0E} \u{2764}",
        "1\u{20E3}",
        "\u{231A}\u{FE0E}\u{FE0F}",
        "\u{2764}\u{FE0F}\u{1F3FB}",
        "\u{2764}\u{FE0E}\u{E0061}",
        "\u{231A}\u{200D}\u{FE0F}\u{231A}",
        "\u{1F1E6}\u{FE0F}\u{1F1E7}",
    ] {
        for bits in 0..1 << (text.len() - 1) {
            let list = feed_lists::cut(text.as_bytes(), bits);
            let checked = feed_case::check(&Reference, &policy, &list);
            assert_eq!(checked, Ok(()), "{text:?} cut by {bits:b}");
        }
    }
}

#[test]
fn a_copy_of_a_feed_goes_on_from_where_it_was_made() {
    let (mut feed, mut out) = ([0; FEED_BYTES], [0; 64]);
    let word = Reference.feed_begin(default_policy(), &mut feed);
    assert_eq!(word, FEED_BYTES as u64);
    Reference.feed_piece(&mut feed, b"a\xE2", &mut out);
    let mut copy = feed;
    assert_eq!(Reference.feed_piece(&mut feed, b"\x9D\xA4", &mut out), 0);
    assert_eq!(Reference.feed_end(&mut feed, &mut out), 6);
    assert_eq!(Reference.feed_end(&mut copy, &mut out), 10 << 56);
    assert_eq!(Reference.feed_piece(&mut copy, b"\x9D\xA4b", &mut out), 7);
}
