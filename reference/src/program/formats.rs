//! What came of the formatter's cases and of super blocks that were read: the answers, whether their order mattered, and
//! the edges at which a formatter may go wrong.

use std::fmt::{self, Display, Formatter};
use std::ops::Range;

use super::reasons::{has_next_fault, Counts};
use super::tally::counts_text;
use crate::disk::consistency::add_each;
use crate::generator::format::{FormatCase, FORMAT_ORDER, READ_ORDER};
use crate::player::format::SuperFields;
use crate::player::superblock::{
    check_length, checksum_is_right, magic_is_right, tail_is_zero, Rights, HAS_GROUP, HAS_OWNER, HAS_PERM,
    HIGHEST_MODE, LABEL, LENGTH,
};
use crate::player::types::{block_is_known, u64_at, Reason, Refusal, SECTOR};
use crate::player::zone::{Zone, FULL, NOT_WRITE_POINTER, OFFLINE, READ_ONLY};

/// Both orders have as many refusals, the last without a next one.
const ORDERED: usize = FORMAT_ORDER.len();
const REFUSALS: Range<usize> = 0..ORDERED;
const REFUSAL_PAIRS: Range<usize> = 0..ORDERED - 1;
/// The reasons of 29, and those that have a next one.
const REASONS: Range<usize> = 0..8;
const REASON_PAIRS: Range<usize> = 0..7;

/// So many edges are counted.
pub const EDGES: usize = 22;
/// What they are. All but those that name another answer are of answer 0. A pointer is low if it is below the capacity.
pub const EDGE_NAMES: [&str; EDGES] = [
    "no label",
    "a label with a zero byte before another",
    "a label of 64 bytes",
    "34 with a label of 65 bytes",
    "21 with a lent block of 4,095 bytes",
    "21 with a lent block of 4,097 bytes",
    "24 with feature bit 4 and no higher one",
    "25 by the owner alone",
    "25 by the group alone",
    "owner and group of all ones without their bits",
    "a mode above 0777 without its bit",
    "the mode 0777 with its bit",
    "33 with the mode 01000",
    "finish 0 of a full zone with a low pointer",
    "finish 0 of a full zone with a pointer past its capacity",
    "finish 0 of a read-only zone with a low pointer",
    "finish 0 of an offline zone with a low pointer",
    "finish 0 of a healthy conventional zone with a low pointer",
    "finish 0 of an open zone at a capacity below its length",
    "finish 1 of an empty zone",
    "finish 1 of a zone with room for one block",
    "finish 1 of a zone at a capacity that isn't given",
];

#[derive(Clone, Copy, Debug, Default, PartialEq, Eq)]
pub struct Formats {
    /// Of the formatter: answered 0, with finish 0 and with finish 1.
    pub formatted: [u64; 2],
    /// Refused, by the place in `FORMAT_ORDER`.
    pub refused: Counts,
    /// Those with 29, by reason.
    pub reasons: Counts,
    pub edges: [u64; EDGES],
    /// Of the reading function: answered 0.
    pub read: u64,
    /// Refused, by the place in `READ_ORDER`.
    pub unread: Counts,
}

impl Formats {
    pub fn count_format(&mut self, case: &FormatCase, answer: &Result<bool, Refusal>) {
        match answer {
            Ok(finish) => self.formatted[usize::from(*finish)] += 1,
            Err(refusal) => count_refusal(&mut self.refused, &FORMAT_ORDER, refusal, &format_faults(case)),
        }
        if let Err(Refusal::BadZone { reason, .. }) = answer {
            self.reasons.count(reason.number() as usize, has_next_reason(case, *reason));
        }
        let edges = [&label_edges(case, answer)[..], &rights_edges(case, answer), &zone_edges(case, answer)];
        add_each(&mut self.edges, &edges.concat().into_iter().map(u64::from).collect::<Vec<_>>());
    }

    pub fn count_super(&mut self, block: &[u8], answer: &Result<SuperFields, Refusal>) {
        match answer {
            Ok(_) => self.read += 1,
            Err(refusal) => count_refusal(&mut self.unread, &READ_ORDER, refusal, &read_faults(block)),
        }
    }

    /// What never came.
    pub fn missing(&self) -> Vec<String> {
        let mut missing = Vec::new();
        for (finish, _) in self.formatted.iter().enumerate().filter(|(_, &count)| count == 0) {
            missing.push(format!("format 0 with finish {finish}"));
        }
        missing.extend(missing_refusals("format", &FORMAT_ORDER, &self.refused));
        missing.extend(self.reasons.missing_reasons(29, REASONS, REASON_PAIRS));
        for (name, _) in EDGE_NAMES.iter().zip(self.edges).filter(|(_, count)| *count == 0) {
            missing.push(name.to_string());
        }
        if self.read == 0 {
            missing.push("read 0".to_string());
        }
        missing.extend(missing_refusals("read", &READ_ORDER, &self.unread));
        missing
    }
}

/// One line on a comparison.
impl Display for Formats {
    fn fmt(&self, out: &mut Formatter) -> fmt::Result {
        let Formats { formatted, refused, reasons, edges, read, unread } = self;
        let cases = formatted.iter().chain(&refused.given).sum::<u64>();
        let blocks = read + unread.given.iter().sum::<u64>();
        write!(
            out,
            "{cases} formats (0={} {}), before the next refusal {}, reasons of 29 {}, before the next one {}, edges {}; {blocks} super blocks read (0={read} {}), before the next refusal {}",
            counts_text(formatted),
            answers_text(&FORMAT_ORDER, refused),
            counts_text(&refused.before_next[REFUSAL_PAIRS]),
            counts_text(&reasons.given[REASONS]),
            counts_text(&reasons.before_next[REASON_PAIRS]),
            counts_text(edges),
            answers_text(&READ_ORDER, unread),
            counts_text(&unread.before_next[REFUSAL_PAIRS]),
        )
    }
}

/// `20=1 21=2`.
fn answers_text(order: &[Refusal; ORDERED], counts: &Counts) -> String {
    let answers =
        order.iter().zip(counts.given).map(|(refusal, count)| format!("{}={count}", refusal.number()));
    answers.collect::<Vec<_>>().join(" ")
}

fn missing_refusals(what: &str, order: &[Refusal; ORDERED], counts: &Counts) -> Vec<String> {
    let number = |place: usize| order[place].number();
    let refusals = REFUSALS.filter(|&place| counts.given[place] == 0).map(|place| number(place).to_string());
    let pairs = REFUSAL_PAIRS.filter(|&place| counts.before_next[place] == 0);
    let orders = pairs.map(|place| format!("{} before {}", number(place), number(place + 1)));
    refusals.chain(orders).map(|text| format!("{what} {text}")).collect()
}

/// `faults` says what there is of each refusal in the order.
fn count_refusal(
    counts: &mut Counts,
    order: &[Refusal; ORDERED],
    refusal: &Refusal,
    faults: &[bool; ORDERED],
) {
    let place = order.iter().position(|other| other.number() == refusal.number());
    let place = place.expect("a refusal that the order has");
    counts.count(place, faults.get(place + 1) == Some(&true));
}

fn format_faults(case: &FormatCase) -> [bool; ORDERED] {
    let (input, rights) = (case.input(), case.input().rights());
    [
        !block_is_known(case.block),
        check_length(&case.lent).is_err(),
        !rights.features_are_known(),
        !rights.ids_are_good(),
        !rights.mode_is_good(),
        !input.label_fits(),
        input.first_zone().is_err(),
    ]
}

/// Of a block that is too short, as if zeros followed.
fn read_faults(block: &[u8]) -> [bool; ORDERED] {
    let mut whole = block.to_vec();
    whole.resize(LENGTH, 0);
    let rights = Rights::decode(&whole);
    [
        check_length(block).is_err(),
        !magic_is_right(&whole),
        !checksum_is_right(&whole),
        !rights.features_are_known(),
        !rights.ids_are_good(),
        !rights.mode_is_good(),
        !tail_is_zero(&whole),
    ]
}

/// A record of another length has a start if it is long enough, and a reader that takes it all the same would say so.
fn has_next_reason(case: &FormatCase, reason: Reason) -> bool {
    match reason {
        Reason::NoRecord => case.record.len() >= 8 && u64_at(&case.record, 0) != 0,
        _ => has_next_fault(&Zone::decode(&case.record, case.given), case.block, reason),
    }
}

/// The edges of label and lent block, in the order of their names.
fn label_edges(case: &FormatCase, answer: &Result<bool, Refusal>) -> [bool; 6] {
    let (label, refused) = (&case.label, |refusal: Refusal| *answer == Err(refusal));
    let zero_within = label.iter().skip_while(|&&byte| byte != 0).any(|&byte| byte != 0);
    [
        answer.is_ok() && label.is_empty(),
        answer.is_ok() && zero_within,
        answer.is_ok() && label.len() == LABEL,
        refused(Refusal::Label) && label.len() == LABEL + 1,
        refused(Refusal::SuperBlockLength) && case.lent.len() == LENGTH - 1,
        refused(Refusal::SuperBlockLength) && case.lent.len() == LENGTH + 1,
    ]
}

/// Those of features, owner, group and mode.
fn rights_edges(case: &FormatCase, answer: &Result<bool, Refusal>) -> [bool; 7] {
    let refused = |refusal: Refusal| *answer == Err(refusal);
    let has = |bit: u64| case.features & bit != 0;
    let (owner, group) = (case.owner == u32::MAX, case.group == u32::MAX);
    let (bad_owner, bad_group) = (has(HAS_OWNER) && owner, has(HAS_GROUP) && group);
    [
        refused(Refusal::Features) && case.features >> 4 == 1,
        refused(Refusal::Owner) && !bad_group,
        refused(Refusal::Owner) && !bad_owner,
        answer.is_ok() && owner && group,
        answer.is_ok() && case.mode > HIGHEST_MODE,
        answer.is_ok() && case.mode == HIGHEST_MODE && has(HAS_PERM),
        refused(Refusal::Perm) && case.mode == HIGHEST_MODE + 1,
    ]
}

/// Those of zone 0, which starts at 0 where it is good.
fn zone_edges(case: &FormatCase, answer: &Result<bool, Refusal>) -> [bool; 9] {
    let (Ok(finish), Ok(zone)) = (*answer, case.input().first_zone()) else { return [false; 9] };
    let Zone { length, pointer, condition, capacity, .. } = zone;
    let (low, sequential, counts) = (pointer < capacity, !zone.is_conventional(), zone.pointer_counts());
    let unread_capacity = u64_at(&case.record, 32);
    [
        !finish && condition == FULL && low,
        !finish && condition == FULL && pointer > capacity,
        !finish && sequential && condition == READ_ONLY && low,
        !finish && sequential && condition == OFFLINE && low,
        !finish && condition == NOT_WRITE_POINTER && low,
        !finish && counts && pointer == capacity && capacity < length,
        finish && pointer == 0,
        finish && pointer + case.block / SECTOR == capacity,
        finish && !case.given && pointer != 0 && pointer == unread_capacity,
    ]
}
