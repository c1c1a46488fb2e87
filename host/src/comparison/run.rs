//! A run of the comparison: the kinds of cases in turn, within bounds, and the report of the first difference.

use std::io::{self, Write};
use std::time::{Duration, Instant};

use super::policies::{self, Policy};
use super::reduce::{reduced, reduced_text};
use super::report::{report, text_report};
use super::texts::{Alphabet, every_text};
use super::{limits, list_case, published, repair_case, tables, text_case, tip_case};
use crate::Random;
use crate::calls::Calls;
use crate::reference::book::LONGEST_FIRST_TEXT;
use crate::reference::calls::LONGEST_TEXT;
use crate::reference::characters;
use crate::reference::repair::repaired;

mod carries;
mod cuts;
mod feeds;
mod near;
mod sheets;
mod stores;

/// The bounds of a run.
#[derive(Debug, Clone, Copy, PartialEq, Eq)]
pub struct Options {
    /// The most cases of each drawn kind.
    pub cases: u64,
    /// After this many seconds no further short or drawn text is begun. The texts around the limits come after those.
    pub seconds: u64,
    /// The seed of the drawn cases.
    pub seed: u64,
    /// The length in characters up to which every text is tried.
    pub length: usize,
    /// The number of tokens up to which every sheet is tried.
    pub sheets: usize,
    /// Whether texts around the limits are tried.
    pub limits: bool,
    /// Whether the texts of Unicode's lists are tried, where these are installed.
    pub published: bool,
}

impl Default for Options {
    fn default() -> Self {
        Self {
            cases: 200_000,
            seconds: 90,
            seed: 1,
            length: 4,
            sheets: 6,
            limits: true,
            published: true,
        }
    }
}

/// In one drawn case of this number a thread is fed too, sheets are read and written, and a policy is carried over.
const FEED_IN: u64 = 4;

/// In one drawn case of this number the memberships that decide a text are compared with the crate too.
const TIPS_BY_CRATE_IN: u64 = 32;
/// The length in characters up to which the memberships are compared for every text, and up to which with the crate.
const TIP_LENGTHS: [usize; 2] = [3, 1];
/// The number of policies under which they are.
const TIP_POLICIES: usize = 3;
/// In one drawn case of this number a list of calls is made on a store too.
const STORE_IN: u64 = 16;

/// Why a run ended early: a difference, told in lines; cases that were asked for and of which none was tried; or a line
/// that could not be printed.
enum Stop {
    Difference(String),
    Nothing(String),
    Output(io::Error),
}

impl From<io::Error> for Stop {
    fn from(error: io::Error) -> Self {
        Self::Output(error)
    }
}

/// Runs the comparison and prints how many cases of each kind there were. True if there was no difference; the first
/// one is printed, with a reduced text. It is not true where nothing was tried of a kind that was asked for.
pub fn run(calls: &dyn Calls, options: &Options, out: &mut dyn Write) -> io::Result<bool> {
    let mut run = Run::new(calls, *options, out);
    match run.all() {
        Ok(()) => {
            writeln!(out, "no difference")?;
            Ok(true)
        }
        Err(Stop::Difference(report)) => {
            writeln!(out, "{report}")?;
            Ok(false)
        }
        Err(Stop::Nothing(kind)) => {
            writeln!(out, "nothing was tried: {kind}")?;
            Ok(false)
        }
        Err(Stop::Output(error)) => Err(error),
    }
}

/// What a run needs at hand.
struct Run<'a> {
    calls: &'a dyn Calls,
    options: Options,
    out: &'a mut dyn Write,
    start: Instant,
    alphabet: Alphabet,
    policies: Vec<Policy>,
}

impl<'a> Run<'a> {
    fn new(calls: &'a dyn Calls, options: Options, out: &'a mut dyn Write) -> Self {
        let mut random = Random::from_seed(options.seed);
        Self {
            calls,
            options,
            out,
            start: Instant::now(),
            alphabet: Alphabet::new(),
            policies: policies::accepted(&mut random),
        }
    }

    /// Each kind in turn.
    fn all(&mut self) -> Result<(), Stop> {
        writeln!(self.out, "seed {}", self.options.seed)?;
        self.tables()?;
        self.sheets()?;
        self.every_carry()?;
        if self.options.published {
            self.published()?;
        }
        for length in 0..=self.options.length {
            self.every_text(length)?;
        }
        self.every_damaged_text()?;
        self.every_feed()?;
        self.every_tip()?;
        self.every_near()?;
        self.every_store()?;
        self.every_cut()?;
        self.drawn()?;
        if self.options.limits {
            self.limits()?;
        }
        Ok(())
    }

    /// Prints a line on a kind.
    fn told(&mut self, kind: &str, cases: u64, what: &str) -> Result<(), Stop> {
        let seconds = self.start.elapsed().as_secs_f32();
        let line = format!("{kind:<12}{cases:>9} {what} ({seconds:.1} s)");
        Ok(writeln!(self.out, "{line}")?)
    }

    /// Whether the seconds are over.
    fn is_over(&self) -> bool {
        self.start.elapsed() >= Duration::from_secs(self.options.seconds)
    }

    /// What a line says of a kind that ended because the seconds are over.
    fn stopped(&self) -> &'static str {
        if self.is_over() {
            ", stopped by --seconds"
        } else {
            ""
        }
    }

    /// Compares a text under a policy; a difference is reduced first.
    fn text(&self, kind: &str, text: &[u8], policy: &Policy) -> Result<(), Stop> {
        let Err(difference) = text_case::check(self.calls, text, policy) else {
            return Ok(());
        };
        let check = |text: &[u8]| text_case::check(self.calls, text, policy).err();
        let small = reduced_text(text, |text| check(text).is_some());
        Err(Stop::Difference(match check(&small) {
            Some(difference) => report(kind, (&small, text.len()), policy, &[], &difference),
            None => report(kind, (text, text.len()), policy, &[], &difference),
        }))
    }

    /// Compares a list of mending calls; a difference is reduced first.
    fn list(&self, text: &[u8], policy: &Policy, list: &[list_case::Mend]) -> Result<(), Stop> {
        let Err(difference) = list_case::check(self.calls, text, policy, list) else {
            return Ok(());
        };
        let check =
            |text: &[u8], list: &[_]| list_case::check(self.calls, text, policy, list).err();
        let fewer = reduced(list, |list| check(text, list).is_some());
        let small = reduced_text(text, |text| check(text, &fewer).is_some());
        Err(Stop::Difference(match check(&small, &fewer) {
            Some(difference) => report("lists", (&small, text.len()), policy, &fewer, &difference),
            None => report("lists", (text, text.len()), policy, list, &difference),
        }))
    }

    /// Compares repairing a text. A text that shows a difference is reduced to a short one.
    fn repair(&self, kind: &str, text: &[u8]) -> Result<(), Stop> {
        let check = |text: &[u8]| repair_case::check(self.calls, text).err();
        let Some(difference) = check(text) else {
            return Ok(());
        };
        let small = reduced_text(text, |text| check(text).is_some());
        let difference = check(&small).unwrap_or(difference);
        let head = text_report(kind, (&small, text.len()));
        Err(Stop::Difference(format!("{head}{difference}")))
    }

    /// Compares the memberships that decide a text. A text that shows a difference is reduced to a short one.
    fn tips(
        &self,
        kind: &str,
        text: &[u8],
        policy: &Policy,
        by_the_crate: bool,
    ) -> Result<(), Stop> {
        let check = |text: &[u8]| tip_case::check(self.calls, text, policy, by_the_crate).err();
        let Some(difference) = check(text) else {
            return Ok(());
        };
        let small = reduced_text(text, |text| check(text).is_some());
        let difference = check(&small).unwrap_or(difference);
        let report = report(kind, (&small, text.len()), policy, &[], &difference);
        Err(Stop::Difference(report))
    }

    /// The memberships that decide every short text over one character of each kind.
    fn every_tip(&mut self) -> Result<(), Stop> {
        let characters = self.alphabet.one_of_each();
        let [longest, longest_by_crate] = TIP_LENGTHS;
        let longest = longest.min(self.options.length);
        let mut cases = 0;
        for length in 0..=longest {
            every_text(&characters, length, |text| {
                for policy in &self.policies[..TIP_POLICIES] {
                    let by_the_crate = length <= longest_by_crate;
                    self.tips("tips", text.as_bytes(), policy, by_the_crate)?;
                    cases += 1;
                }
                Ok::<(), Stop>(())
            })?;
        }
        let what = format!("texts of up to {longest} characters and policies, memberships");
        self.told("tips", cases, &what)
    }

    /// Every text of up to three bytes at the edges of the ranges of Table 3-7, and every text of four bytes over fewer
    /// of them.
    fn every_damaged_text(&mut self) -> Result<(), Stop> {
        let mut texts = 0;
        let all = (0..=3).map(|length| (&repair_case::EDGES[..], length));
        for (bytes, length) in all.chain([(&repair_case::FEWER_EDGES[..], 4)]) {
            repair_case::every_text(bytes, length, |text| {
                texts += 1;
                self.repair("repair", text)
            })?;
        }
        self.told("repair", texts, "texts of up to 4 bytes")
    }

    /// The default policy and the variation entries.
    fn tables(&mut self) -> Result<(), Stop> {
        let difference = tables::check(self.calls).err();
        if let Some(difference) = difference {
            return Err(Stop::Difference(format!(
                "difference in tables\n{difference}"
            )));
        }
        self.told(
            "tables",
            1 + characters::entries() as u64,
            "default policy and entries",
        )
    }

    /// The texts of Unicode's lists in their forms, each under the default policy and, by turns, one of the others.
    fn published(&mut self) -> Result<(), Stop> {
        let folder = published::folder();
        let published::Read {
            texts,
            missing,
            empty,
        } = published::texts(&folder);
        for list in missing {
            let (folder, variable) = (folder.display(), published::VARIABLE);
            let line = format!("published   {list} is not in {folder} ({variable}): passed over");
            writeln!(self.out, "{line}")?;
        }
        if let Some(list) = empty.first() {
            let path = folder.join(list);
            return Err(Stop::Nothing(format!("{} has no text", path.display())));
        }
        let mut cases = 0;
        let mut before = "";
        let mut others = self.policies[1..].iter().cycle();
        for text in &texts {
            for form in published::forms(text, before) {
                for policy in self.policies.first().into_iter().chain(others.next()) {
                    self.text("published", form.as_bytes(), policy)?;
                    cases += 1;
                }
            }
            before = text;
        }
        let what = format!(
            "texts and policies, from {} texts of Unicode's lists",
            texts.len()
        );
        self.told("published", cases, &what)
    }

    /// Every text of a length over one character of each kind. The longer ones have fewer policies.
    fn every_text(&mut self, length: usize) -> Result<(), Stop> {
        let characters = self.alphabet.one_of_each();
        let policies = match length {
            0..=3 => &self.policies[..],
            4 => &self.policies[..2],
            _ => &self.policies[..1],
        };
        let mut texts = 0;
        every_text(&characters, length, |text| {
            if self.is_over() {
                return Ok(());
            }
            texts += 1;
            policies
                .iter()
                .try_for_each(|policy| self.text("every text", text.as_bytes(), policy))
        })?;
        if texts == 0 {
            let what = format!("texts of {length} characters, in --seconds");
            return Err(Stop::Nothing(what));
        }
        let number = policies.len();
        let stopped = self.stopped();
        let what = format!("texts of {length} characters, {number} policies{stopped}");
        self.told("every text", texts, &what)
    }

    /// Drawn texts, damaged ones, the same taken in, lists of mending calls and of calls on feeds and stores, sheets,
    /// policies carried over, memberships, stretches and cuts, in turns.
    fn drawn(&mut self) -> Result<(), Stop> {
        let mut cases = 0;
        let mut calls = 0;
        let (mut feeds, mut feed_calls, mut stretches) = (0, 0, 0);
        let (mut stores, mut store_calls) = (0, 0);
        let mut cuts = 0;
        while cases < self.options.cases && !self.is_over() {
            let mut random = Random::from_seed(self.options.seed ^ (cases << 20));
            self.drawn_text(&mut random)?;
            self.damaged_text(&mut random)?;
            self.repaired_text(&mut random)?;
            calls += self.drawn_list(&mut random)?;
            self.drawn_tips(&mut random, cases % TIPS_BY_CRATE_IN == 0)?;
            stretches += self.drawn_near(&mut random)?;
            // A thread has many calls, each with the thread so far formatted anew.
            if cases % FEED_IN == 0 {
                feed_calls += self.drawn_feed(&mut random)?;
                feeds += 1;
                self.drawn_sheets(&mut random)?;
                self.drawn_carry(&mut random)?;
            }
            if cases % STORE_IN == 0 {
                store_calls += self.drawn_store(&mut random)?;
                stores += 1;
            }
            cuts += self.drawn_cuts(&mut random)?;
            cases += 1;
        }
        if cases == 0 && self.options.cases > 0 {
            return Err(Stop::Nothing("drawn texts, in --seconds".to_owned()));
        }
        let stopped = self.stopped();
        self.told("random", cases, &format!("texts{stopped}"))?;
        self.told("damaged", cases, "texts or policies")?;
        self.told("repaired", cases, "texts, and the calls after it")?;
        let what =
            format!("drawn texts or policies, memberships; one in {TIPS_BY_CRATE_IN} by the crate");
        self.told("tips", cases, &what)?;
        let what = format!("lists of mending calls, {calls} calls");
        self.told("lists", cases, &what)?;
        let what = "drawn sheets, damaged ones, and policies each";
        self.told("sheets", feeds, what)?;
        let what = "drawn old lists with a policy";
        self.told("carries", feeds, what)?;
        let what = format!("texts, {stretches} stretches and offsets");
        self.told("near", cases, &what)?;
        let what = format!("texts, {cuts} offsets, and the joined parts");
        self.told("cuts", cases, &what)?;
        let what = format!("drawn threads and bytes that are no feed, {feed_calls} calls");
        self.told("feeds", feeds, &what)?;
        let what = format!("drawn stores and bytes that are no store, {store_calls} calls");
        self.told("stores", stores, &what)
    }

    fn drawn_policy(&self, random: &mut Random) -> Policy {
        if random.below(4) == 0 {
            return policies::drawn(random);
        }
        self.policies[random.below(self.policies.len())].clone()
    }

    fn drawn_text(&self, random: &mut Random) -> Result<(), Stop> {
        let text = self.alphabet.drawn(random);
        self.text("random", &text, &self.drawn_policy(random))
    }

    /// A damaged text, a policy that is refused, or both.
    fn damaged_text(&self, random: &mut Random) -> Result<(), Stop> {
        let (text, policy) = match random.below(4) {
            0 => (self.alphabet.drawn(random), policies::refused(random)),
            1 => (self.alphabet.damaged(random), policies::refused(random)),
            _ => (self.alphabet.damaged(random), self.drawn_policy(random)),
        };
        self.text("damaged", &text, &policy)
    }

    /// Makes the calls on a text that may be damaged, repairs it, and makes the calls on the result.
    fn repaired_text(&self, random: &mut Random) -> Result<(), Stop> {
        let text = match random.below(4) {
            0 => repair_case::drawn(random),
            1 => repair_case::runs(random),
            _ => self.alphabet.damaged(random),
        };
        let policy = self.drawn_policy(random);
        self.text("repaired", &text, &policy)?;
        self.repair("repaired", &text)?;
        let (text, _) = repaired(&text);
        self.text("repaired", &text, &policy)
    }

    /// The memberships that decide a drawn text. Of a text that is compared with the crate, text and policy are accepted.
    fn drawn_tips(&self, random: &mut Random, by_the_crate: bool) -> Result<(), Stop> {
        let is_damaged = !by_the_crate && random.below(8) == 0;
        let text = match is_damaged {
            true => self.alphabet.damaged(random),
            false => self.alphabet.drawn(random),
        };
        let policy = match is_damaged && random.coin() {
            true => policies::refused(random),
            false => self.drawn_policy(random),
        };
        self.tips("tips", &text, &policy, by_the_crate)
    }

    /// A list of mending calls, and how many they are.
    fn drawn_list(&self, random: &mut Random) -> Result<u64, Stop> {
        let text = self.alphabet.drawn(random);
        let policy = self.drawn_policy(random);
        let list = list_case::drawn(random, &text, &policy);
        self.list(&text, &policy, &list)?;
        Ok(list.len() as u64)
    }

    /// Texts around the limits, and a list that starts from a text of the longest length.
    fn limits(&mut self) -> Result<(), Stop> {
        let mut random = Random::from_seed(self.options.seed);
        let mut texts = 0;
        for length in limits::lengths() {
            for (text, policy) in limits::cases(length, &mut random) {
                self.text("limits", &text, &policy)?;
                texts += 1;
            }
        }
        for length in [LONGEST_TEXT + 1, LONGEST_TEXT, LONGEST_TEXT - 1] {
            for text in repair_case::around_limit(length) {
                self.repair("limits", &text)?;
                texts += 1;
            }
        }
        for length in [LONGEST_TEXT + 1, LONGEST_TEXT] {
            let policy = Policy::default_policy();
            self.tips("limits", &limits::sparse(length), &policy, false)?;
            texts += 1;
        }
        texts += self.feeds_around_limit()?;
        texts += self.sheets_around_limit()?;
        let text = limits::sparse(LONGEST_FIRST_TEXT);
        let policy = Policy::default_policy();
        let list = list_case::drawn(&mut random, &text, &policy);
        self.list(&text, &policy, &list)?;
        self.told("limits", texts + 1, "texts of lengths around the limits")
    }
}
