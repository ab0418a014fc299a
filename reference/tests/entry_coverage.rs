//! What the first scripts, and the inputs without a seed, hold of journal
//! entries.

use reference::engine::Engine;
use reference::generate::{entry_inputs, script, BORDERS};
use reference::layout::*;
use reference::player::entry::Fit;
use reference::player::{Player, NONE_IN_HAND};
use reference::requests::{Request, Stash};
use reference::script::{Op, Reader};
use reference::work::Work;
use reference::wrong::untold;
use std::collections::BTreeSet;

const SEEDS: u64 = 500;

/// When an entry is taken.
#[derive(Clone, Copy, Debug, PartialEq, Eq, PartialOrd, Ord)]
enum Moment {
    Unstarted,
    Between,
    /// Only the mark is left.
    Mark,
    Finished,
    Damaged,
}

impl Moment {
    fn of(work: &Work) -> Moment {
        match Engine::PAPER.left(work) {
            0 if Engine::PAPER.answer(work, &mut [0; ANSWER_MAX]) != 0 => Moment::Damaged,
            0 => Moment::Finished,
            1 => Moment::Mark,
            _ if work.position == 0 => Moment::Unstarted,
            _ => Moment::Between,
        }
    }
}

/// What was seen of entries.
#[derive(Default)]
struct Taken {
    /// Number and fit by kind of work.
    fits: BTreeSet<(Sort, u32, Fit)>,
    numbers: BTreeSet<u32>,
    moments: BTreeSet<(Sort, Moment)>,
    /// By the length of the answer, of what has nothing to store.
    nothing: BTreeSet<u64>,
    /// Whether a boot began it.
    disablings: BTreeSet<bool>,
    /// A part that was set before it, with its field.
    set: BTreeSet<(Sort, u8, bool)>,
    types: BTreeSet<u32>,
    svns: BTreeSet<u32>,
    callers: BTreeSet<u32>,
    registers: BTreeSet<u64>,
}

impl Taken {
    /// What lists of operations hold, each played from the start.
    fn of(lists: impl Iterator<Item = Vec<Op>>) -> Taken {
        let mut taken = Taken::default();
        for ops in lists {
            let mut player = Player::new(Engine::PAPER);
            let mut before = None;
            let mut stash = None;
            for op in ops {
                if let (Op::Entry(_), Some(work)) = (&op, player.work()) {
                    taken.see(work, before, stash.as_ref());
                }
                if let Op::Request(mail) = &op {
                    let request = Request {
                        caller: mail.caller,
                        ..Request::plain(mail.code, &mail.bytes)
                    };
                    if mail.code == STASH && mail.bytes.len() == 60 {
                        stash = Some(Stash::of(request));
                    }
                }
                before = match op {
                    Op::Set { field, .. } => Some(field),
                    _ => None,
                };
                player.operate(op).expect("the books agree");
            }
            taken.fits.extend(player.seen.entries);
            let numbers = player.seen.numbers.into_iter();
            taken
                .numbers
                .extend(numbers.filter(|n| n.0 == 'J').map(|n| n.1));
        }
        taken
    }

    fn see(&mut self, work: &Work, set: Option<u8>, stash: Option<&Stash>) {
        let sort = work.kind.sort();
        let moment = Moment::of(work);
        self.moments.insert((sort, moment));
        self.set
            .extend(set.map(|field| (sort, field, moment == Moment::Damaged)));
        if moment != Moment::Finished {
            return;
        }
        match sort {
            Sort::Nothing => drop(self.nothing.insert(work.answer_bytes)),
            Sort::Disabling => drop(self.disablings.insert(work.answer_bytes == 0)),
            Sort::Extension => {
                let mut kind = work.kind;
                let named = kind
                    .indices()
                    .iter_mut()
                    .map(|index| *index.value())
                    .collect::<Vec<_>>();
                self.registers.extend(named);
            }
            Sort::Stash => {
                let stash = stash.expect("a request before its work");
                self.types.insert(stash.kind);
                self.svns.insert(stash.svn);
                self.callers.insert(stash.caller);
            }
            _ => {}
        }
    }

    fn has_every_case(&self) {
        assert!(self.numbers.iter().eq(&[0, 7, 23, NONE_IN_HAND]));
        for sort in Sort::ALL {
            let fits = |number: u32, fit: Fit| {
                assert!(
                    self.fits.contains(&(sort, number, fit)),
                    "{sort:?} {number} {fit:?}"
                );
            };
            fits(0, Fit::Exact);
            fits(0, Fit::Longer);
            fits(7, Fit::None);
            let moment = |moment: Moment| {
                assert!(
                    self.moments.contains(&(sort, moment)),
                    "{sort:?} {moment:?}"
                );
            };
            moment(Moment::Finished);
            moment(Moment::Damaged);
            if sort != Sort::Nothing {
                fits(23, Fit::OneShort);
                moment(Moment::Unstarted);
                moment(Moment::Between);
                moment(Moment::Mark);
            }
            if sort != Sort::Nothing && sort != Sort::Disabling {
                fits(23, Fit::Short);
            }
        }
        // A kept boot, a verified signature, a stash that is declined, a key.
        assert!([0, 8, 12, 104]
            .iter()
            .all(|length| self.nothing.contains(length)));
        assert_eq!(self.disablings.len(), 2);
        for border in BORDERS {
            assert!(self.types.contains(&border), "type {border}");
            assert!(self.svns.contains(&border), "svn {border}");
            assert!(self.callers.contains(&border), "caller {border}");
        }
        assert!((4..=30).all(|register| self.registers.contains(&register)));
        for (sort, field) in [
            (Sort::Extension, 0),
            (Sort::Extension, 1),
            (Sort::Extension, 3),
            (Sort::Stash, 0),
            (Sort::Stash, 1),
            (Sort::Stash, 3),
        ] {
            for damaged in [false, true] {
                assert!(
                    self.set.contains(&(sort, field, damaged)),
                    "{sort:?} {field} {damaged}"
                );
            }
        }
    }
}

#[test]
fn the_first_scripts_hold_every_case_of_an_entry() {
    Taken::of((0..SEEDS).map(|seed| script(seed).ops)).has_every_case();
}

#[test]
fn inputs_without_a_seed_hold_every_case_of_an_entry() {
    let inputs = entry_inputs();
    let lists = inputs.iter().map(|input| Reader::new(input).collect());
    Taken::of(lists).has_every_case();
}

#[test]
fn inputs_without_a_seed_tell_every_wrong_entry() {
    assert_eq!(untold(&entry_inputs(), "The journal entry"), [""; 0]);
}
