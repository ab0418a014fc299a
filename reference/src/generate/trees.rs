//! Tree commands: units that grow and shrink in every shape, every ground, odd
//! data and odd fresh handles, and works whose nodes are set.

use super::journals::Unit;
use super::Maker;
use crate::boots::Boot;
use crate::checksum::sealed;
use crate::engine::Paper;
use crate::journal::groups;
use crate::layout::*;
use crate::memory::{handle_of, Memory};
use crate::random::Random;
use crate::script::{BootBytes, Mail, Op, FREED_FROM, FREED_NUMBER};
use crate::tree::{Act, TreeCall, DEFAULT, RETIRED};

/// A request with that data, which may be anything.
pub(super) fn invoke(data: &[u8], fresh: &[u8], caller: u32) -> Mail {
    let size = (data.len() as u32).to_le_bytes();
    Mail {
        code: INVOKE,
        caller,
        verdict: 0,
        table: Vec::new(),
        bytes: sealed(INVOKE, &[&size[..], data].concat()),
        fresh: fresh.to_vec(),
    }
}

/// A tree command's data.
pub(super) fn data(call: &TreeCall) -> Vec<u8> {
    let (command, rest) = match call.act {
        Act::Derive {
            retain,
            kind,
            digest,
        } => {
            let numbers = [groups(retain), groups(kind)].concat();
            (DERIVE_DATA, [&numbers[..], &digest].concat())
        }
        Act::Extend { digest } => (EXTEND_DATA, digest.to_vec()),
        Act::Rotate => (ROTATE_DATA, vec![]),
        Act::Destroy => (DESTROY_DATA, vec![]),
    };
    [&[command][..], &call.handle, &rest].concat()
}

/// A tree command's request.
pub(super) fn mail(call: &TreeCall) -> Mail {
    let lent = if call.act.takes_fresh() {
        &call.fresh[..]
    } else {
        &[]
    };
    invoke(&data(call), lent, call.caller)
}

/// Sets the size in a request's bytes behind the checksum, if they reach so far:
/// it is mostly that of the data.
pub(super) fn set_size(random: &mut Random, code: u32, body: &mut [u8]) {
    let rest = body.len().saturating_sub(INVOKE_DATA - CHECKSUM_BYTES) as u32;
    let any = random.half();
    let near = random.pick(&[rest + 1, rest.wrapping_sub(1), 0, any, rest | 1 << 16]);
    let size = random.pick(&[rest, rest, rest, near]);
    if code == INVOKE {
        if let Some(field) = body.first_chunk_mut() {
            *field = size.to_le_bytes();
        }
    }
}

/// The bytes of a node's handle.
pub(super) fn handle_at(image: &[u32], index: usize) -> Handle {
    let words = handle_of(image, index);
    std::array::from_fn(|i| words[i / 4].to_le_bytes()[i % 4])
}

/// The used nodes whose handle is not retired.
fn live(image: &[u32]) -> Vec<usize> {
    let is_live = |&index: &usize| {
        Paper.is_used(image, index) && !Paper.has_handle(image, index, &RETIRED_HANDLE)
    };
    (0..NODES).filter(is_live).collect()
}

/// A handle like another but for one byte.
pub(super) fn near(random: &mut Random, handle: &Handle) -> Handle {
    let mut near = *handle;
    let at = random.pick(&[0, 3, 4, 15, 16, HANDLE_BYTES - 1]);
    near[at] ^= 1 << random.below(8);
    near
}

/// A handle that no node is likely to have: any bytes, or like a node's.
fn fresh(random: &mut Random, image: &[u32]) -> Handle {
    let any = random.bytes(HANDLE_BYTES);
    let any: Handle = std::array::from_fn(|i| any[i]);
    let of_node = handle_at(image, random.below(NODES));
    let near = near(random, &of_node);
    let listed = random.pick(&[any, any, any, near]);
    match Paper.named(image, &listed) {
        Some(_) => any,
        None => listed,
    }
}

/// A fresh handle that is wrong: its length, zero, retired, or a node's.
fn bad_fresh(random: &mut Random, image: &[u32]) -> Vec<u8> {
    let node = any_live(random, image);
    let taken = handle_at(image, node);
    match random.below(9) {
        0 => vec![],
        1 => random.bytes(HANDLE_BYTES - 1),
        2 => random.bytes(HANDLE_BYTES + 1),
        3 => DEFAULT.to_vec(),
        4 => RETIRED.to_vec(),
        5 => DEFAULT[1..].to_vec(),
        6 => [&RETIRED[..], &[0xFF]].concat(),
        _ => taken.to_vec(),
    }
}

/// Changes one thing in data so that it is malformed, or cuts it.
fn bend_data(random: &mut Random, data: &mut Vec<u8>) {
    // Behind the handle a derive has retain, then the type.
    let retain = 1 + HANDLE_BYTES;
    match random.below(10) {
        0 => data.truncate(random.below(data.len())),
        1 => data.truncate(data.len() - 1),
        2 => data.push(0),
        3 => data[0] = random.pick(&[6, data[0] | 0x80, data[0] | 8, 0xFF]),
        4 => data[0] = 0,
        5 => data[0] = 5,
        6 => data.insert(retain.min(data.len()), random.pick(&[0x80, 0x81])),
        7 => data.insert((retain + 1).min(data.len()), 0x80),
        8 => {
            if let Some(retain) = data.get_mut(retain) {
                *retain = random.pick(&[2, 3, 0x7F, 0x82]);
            }
        }
        _ => {
            let at = (retain + 1).min(data.len());
            data.splice(at..at, [0xFF, 0xFF, 0xFF, 0xFF]);
        }
    }
}

/// The nodes of a unit that a command can be carried out at.
fn able(image: &[u32], act: Act) -> Vec<usize> {
    let is_able = |&index: &usize| {
        let leaf = Paper.children(image, index).is_empty();
        !(act.spares_root() && Paper.is_root(image, index)) && (act != Act::Destroy || leaf)
    };
    live(image).into_iter().filter(is_able).collect()
}

/// A tree command that a unit carries out if it has a node for it.
pub(super) fn any_call(random: &mut Random, image: &[u32]) -> TreeCall {
    let any = random.half();
    let kind = random.pick(&[any, 0, 127, 128, RTJM, u32::MAX]);
    let digest = random.bytes(4 * DIGEST_WORDS);
    let digest: Digest = std::array::from_fn(|i| digest[i]);
    let derive = |retain: u32| Act::Derive {
        retain,
        kind,
        digest,
    };
    let act = match random.below(12) {
        0..=4 => derive(1),
        5 | 6 => derive(0),
        7 | 8 => Act::Extend { digest },
        9 => Act::Rotate,
        _ => Act::Destroy,
    };
    of_act(random, image, act)
}

/// That command at a node of the unit.
pub(super) fn of_act(random: &mut Random, image: &[u32], act: Act) -> TreeCall {
    let nodes = able(image, act);
    let node = match nodes.len() {
        0 => 0,
        _ => random.pick(&nodes),
    };
    let caller = node_of(image, node)[LOCALITY];
    let fresh = fresh(random, image);
    TreeCall::new(handle_at(image, node), act, &fresh, caller)
}

/// How a unit grows: the node to derive from, and whether it is retained.
type Growth = fn(&mut Random, &[u32], usize) -> (usize, u32);

/// A chain that is retained and one that is retired, a star, a comb, forks that
/// are retired by their second child, and any tree.
const SHAPES: [Growth; 6] = [
    |_, image, _| (last_used(image), 1),
    |_, image, _| (last_used(image), 0),
    |_, _, _| (0, 1),
    |_, image, turn| (last_used(image).saturating_sub(turn % 2), 1),
    |_, image, turn| {
        (
            last_used(image).saturating_sub(turn % 2),
            1 - turn as u32 % 2,
        )
    },
    |random, image, _| (any_live(random, image), 1),
];

/// Any live node; node 0 if there is none.
fn any_live(random: &mut Random, image: &[u32]) -> usize {
    let nodes = live(image);
    match nodes.len() {
        0 => 0,
        _ => random.pick(&nodes),
    }
}

fn last_used(image: &[u32]) -> usize {
    let last = (0..NODES).rfind(|&index| Paper.is_used(image, index));
    last.unwrap_or_default()
}

impl Maker {
    /// A tree command to its end, on the unit too.
    fn step(&mut self, unit: &mut Unit, call: &TreeCall) {
        self.push(Op::Request(mail(call)));
        if self.random.once_in(4) {
            self.push(Op::Left);
        }
        self.push_stores(COLD_STORES);
        if self.random.once_in(3) {
            self.push(Op::Answer(13));
        }
        unit.call(call);
    }

    fn any_step(&mut self, unit: &mut Unit) {
        let call = any_call(&mut self.random, &unit.image);
        self.step(unit, &call);
    }

    /// A stash to its end, of a caller that may well be others'.
    fn stash_step(&mut self, unit: &mut Unit) {
        let mut stash = self.stash();
        stash.caller = self.random.pick(&[0, 0, 7, stash.caller]);
        self.push(Op::Request(super::svns::mail(&stash)));
        self.push_stores(STASH_STORES);
        unit.stash(&stash);
    }

    /// A unit right after a cold boot.
    fn sprout(&mut self) -> Unit {
        let boot = self.boot_inputs();
        let digest = |bytes: &[u8]| bytes.try_into().expect("a fine boot");
        let mut unit = Unit::blank();
        unit.cold(&Boot {
            runtime: digest(&boot.runtime),
            manifest: digest(&boot.manifest),
            secret: digest(&boot.secret),
        });
        self.push_boot(boot);
        unit
    }

    fn push_boot(&mut self, boot: BootBytes) {
        self.push(Op::Cold(boot));
        self.push_stores(COLD_STORES);
    }

    /// A unit that grows in a shape by so many nodes, stashes among them.
    fn grown(&mut self, shape: usize, nodes: usize) -> Unit {
        let mut unit = self.sprout();
        let grow = SHAPES[shape % SHAPES.len()];
        let stashes = self.random.once_in(3);
        for turn in 0..nodes {
            if stashes && self.random.once_in(3) {
                self.stash_step(&mut unit);
                continue;
            }
            let (parent, retain) = grow(&mut self.random, &unit.image, turn);
            let any = any_call(&mut self.random, &unit.image);
            let digest = self.digest().try_into().expect("a digest has 48 bytes");
            let kind = self.word();
            let act = Act::Derive {
                retain,
                kind,
                digest,
            };
            let call = TreeCall {
                handle: handle_at(&unit.image, parent),
                caller: node_of(&unit.image, parent)[LOCALITY],
                ..of_act(&mut self.random, &unit.image, act)
            };
            let retired = call.handle == RETIRED;
            self.step(&mut unit, if retired { &any } else { &call });
        }
        unit
    }

    /// A root, a node below it, one below that which is retired, and a leaf.
    fn sapling(&mut self) -> Unit {
        let mut unit = self.sprout();
        for retain in [1, 1, 0] {
            let act = Act::Derive {
                retain,
                kind: self.word(),
                digest: self.digest().try_into().expect("a digest has 48 bytes"),
            };
            let call = TreeCall {
                handle: handle_at(&unit.image, last_used(&unit.image)),
                ..of_act(&mut self.random, &unit.image, act)
            };
            self.step(&mut unit, &call);
        }
        unit
    }

    /// Units of a shape that takes turns from seed to seed: they grow, any
    /// commands change them, all that can be is destroyed, and freed nodes serve
    /// again; then works that are cut in turn.
    pub(super) fn trees(&mut self) {
        let in_turn = self.seed as usize / 8;
        let nodes = match self.random.below(6) {
            0 => NODES - 1,
            1 => self.random.between(8, NODES),
            _ => self.random.between(3, 7),
        };
        let mut unit = self.grown(in_turn, nodes);
        self.push(Op::Dump);
        for _ in 0..self.random.between(2, 5) {
            self.any_step(&mut unit);
            self.bad_call(&unit);
            self.bent_call(&unit);
        }
        self.long_data(in_turn);
        for _ in 0..self.random.between(1, 6) {
            self.destroy_step(&mut unit);
            if self.random.once_in(2) {
                self.any_step(&mut unit);
            }
        }
        self.push(Op::Dump);
        self.stash_step(&mut unit);
        self.push(Op::Answer(12));
        self.any_step(&mut unit);
        self.push_update(true);
        self.finish();
        self.push(Op::Dump);
        let turn = 2 * in_turn + usize::from(self.seed % 8 == 7);
        self.cut_call(2 * turn);
        self.cut_call(2 * turn + 1);
    }

    /// A destroy whose nodes are shown while they are freed.
    fn destroy_step(&mut self, unit: &mut Unit) {
        let destroy = of_act(&mut self.random, &unit.image, Act::Destroy);
        self.push(Op::Request(mail(&destroy)));
        let part = self.random.between(1, 2 * NODE_WORDS);
        self.push_stores(part);
        if self.random.once_in(2) {
            self.push(Op::Dump);
        }
        self.push_stores(COLD_STORES);
        self.push(Op::Answer(12));
        unit.call(&destroy);
    }

    /// A command that only its data, its caller's high half or a fresh handle that
    /// is its own is against.
    fn bent_call(&mut self, unit: &Unit) {
        let mut call = any_call(&mut self.random, &unit.image);
        let mut data = data(&call);
        match self.random.below(6) {
            0 => call.caller ^= 1 << 16,
            1 => {
                call = of_act(&mut self.random, &unit.image, Act::Rotate);
                call.fresh = call.handle;
                data = self::data(&call);
            }
            _ => bend_data(&mut self.random, &mut data),
        }
        self.push(Op::Request(invoke(&data, &call.fresh, call.caller)));
        self.push(Op::Left);
        self.push(Op::Answer(12));
    }

    /// Data around the greatest length, now and then.
    fn long_data(&mut self, in_turn: usize) {
        let size = [DATA_BYTES - 1, DATA_BYTES, DATA_BYTES + 1][in_turn % 3];
        if self.random.once_in(2) {
            let data = self.random.bytes(size);
            self.push(Op::Request(invoke(&data, &[], 0)));
            self.push(Op::Answer(12));
        }
    }

    /// A call with some of its parts wrong, so that grounds meet.
    fn bad_call(&mut self, unit: &Unit) {
        let image = &unit.image;
        let mut call = any_call(&mut self.random, image);
        if self.random.once_in(2) {
            // The root, and nodes with children, too.
            let node = any_live(&mut self.random, image);
            call.handle = handle_at(image, node);
            call.caller = node_of(image, node)[LOCALITY];
        }
        if self.random.once_in(4) {
            let near = near(&mut self.random, &call.handle);
            call.handle = self.random.pick(&[RETIRED, near, near, DEFAULT]);
        }
        if self.random.once_in(3) {
            call.caller = self.random.pick(&[call.caller ^ 1, !call.caller, 0, 7]);
        }
        let mut data = data(&call);
        if self.random.once_in(4) {
            bend_data(&mut self.random, &mut data);
        }
        let bad = bad_fresh(&mut self.random, image);
        let fresh = match self.random.below(6) {
            0..=2 => &bad[..],
            3 => &call.handle,
            _ => &call.fresh,
        };
        self.push(Op::Request(invoke(&data, fresh, call.caller)));
        self.push(Op::Left);
        self.push(Op::Answer(12));
    }

    /// A command on a small unit that goes after a number of stores; commands and
    /// numbers take turns.
    fn cut_call(&mut self, in_turn: usize) {
        let mut unit = self.sapling();
        let digest = [in_turn as u8; 4 * DIGEST_WORDS];
        let derive = |retain: u32| Act::Derive {
            retain,
            kind: 9,
            digest,
        };
        let acts = [
            (derive(1), DERIVE_STORES),
            (derive(0), SUCCEED_STORES),
            (Act::Extend { digest }, REMEASURE_STORES),
            (Act::Rotate, ROTATE_STORES),
            (Act::Destroy, destroy_stores(1)),
        ];
        let all: usize = acts.iter().map(|(_, stores)| stores + 1).sum();
        let mut position = in_turn % all;
        for (act, stores) in acts {
            if position <= stores {
                let call = of_act(&mut self.random, &unit.image, act);
                self.push(Op::Request(mail(&call)));
                break;
            }
            position -= stores + 1;
        }
        self.push_stores(position);
        self.push(Op::Left);
        match in_turn / all {
            0 => self.push(Op::Cut),
            _ if self.random.once_in(2) => self.push_any_request(),
            _ => {}
        }
        let yes = self.random.once_in(2);
        self.push_update(yes);
        self.finish();
        self.push(Op::Dump);
        self.any_step(&mut unit);
    }

    /// Tree commands at the nodes of an image that is lent, most of them fine if
    /// the image is.
    pub(super) fn try_calls(&mut self, image: &[u32]) {
        for _ in 0..self.random.between(1, 3) {
            let call = any_call(&mut self.random, image);
            self.push(Op::Request(mail(&call)));
            self.push(Op::Left);
            self.push(Op::Answer(12));
        }
        let unit = Unit {
            image: image.to_vec(),
            journal: Vec::new(),
        };
        self.bad_call(&unit);
        if self.random.once_in(2) {
            let destroy = of_act(&mut self.random, image, Act::Destroy);
            let any = any_call(&mut self.random, image);
            let call = if self.random.once_in(2) { destroy } else { any };
            self.push(Op::Request(mail(&call)));
            self.push_stores(COLD_STORES);
            self.push(Op::Dump);
        }
    }

    /// A tree command at the default handle, of the caller of the last stash; what
    /// the unit is like is not known.
    pub(super) fn push_call(&mut self) {
        let digest = self.digest().try_into().expect("a digest has 48 bytes");
        let derive = Act::Derive {
            retain: 1,
            kind: self.word(),
            digest,
        };
        let extend = Act::Extend { digest };
        let act = self
            .random
            .pick(&[derive, derive, derive, extend, extend, Act::Destroy]);
        let fresh = self.random.bytes(HANDLE_BYTES);
        let caller = self.random.pick(&[self.caller, self.caller, 0]);
        let call = TreeCall::new(DEFAULT, act, &fresh, caller);
        self.push(Op::Request(mail(&call)));
    }

    /// Commands on small units with a part of their work set before, between or
    /// after its stores. Commands, parts and places take turns.
    pub(super) fn moved_calls(&mut self) {
        let in_turn = self.seed as usize / 8;
        for turn in 0..3 {
            self.moved_call(3 * in_turn + turn);
        }
    }

    fn moved_call(&mut self, in_turn: usize) {
        let unit = self.sapling();
        let digest = [in_turn as u8; 4 * DIGEST_WORDS];
        let derive = |retain: u32| Act::Derive {
            retain,
            kind: 9,
            digest,
        };
        let (act, fields): (Act, &[u8]) = [
            (derive(1), &[1, 2][..]),
            (derive(0), &[1, 2]),
            (Act::Extend { digest }, &[1, 2]),
            (Act::Rotate, &[1, 2]),
            (Act::Destroy, &[4, 16, 17, 47, 1, 2]),
            (Act::Destroy, &[4, 16, 4, 16]),
        ][in_turn % 6];
        let call = of_act(&mut self.random, &unit.image, act);
        let place = in_turn / 6;
        self.push(Op::Request(mail(&call)));
        let all = match act {
            Act::Destroy => NODE_WORDS,
            _ => call.sort().stores(),
        };
        let between = self.random.between(1, all - 1);
        self.push_stores([0, between, COLD_STORES][place % 3]);
        let round = place / 3;
        let field = fields[round % fields.len()];
        self.set_moved(field, round / 2 % 2 == 1);
        if field == FREED_NUMBER && self.random.once_in(2) {
            let at = self.random.below(4);
            let beyond = self.random.once_in(2);
            self.set_moved((FREED_FROM + at) as u8, beyond);
        }
        self.push(Op::Left);
        self.push(Op::Store(1));
        self.push(Op::Answer(12));
        self.push_entry();
        self.push_stores(COLD_STORES);
        self.push(Op::Answer(13));
        self.push(Op::Dump);
        if self.random.once_in(3) {
            self.set(0, 0);
            let beyond = self.random.once_in(2);
            self.set_moved(field, beyond);
            self.push_stores(COLD_STORES);
            self.push(Op::Left);
            self.push(Op::Dump);
        }
    }

    /// Sets an index, or a number of freed nodes, within its bounds or beyond.
    fn set_moved(&mut self, field: u8, beyond: bool) {
        let nodes = NODES as u64;
        let inside = self.random.below(NODES) as u64;
        let small = self.random.below(4) as u64;
        let most = match field {
            FREED_NUMBER => nodes,
            _ => nodes - 1,
        };
        let far = self
            .random
            .pick(&[(1 << 32) + inside, 1 << 63, u64::MAX, 255]);
        let value = match (beyond, field) {
            (true, _) => self.random.pick(&[most + 1, most + 1, most + 2, far]),
            (false, FREED_NUMBER) => self.random.pick(&[small, small, inside, most]),
            (false, _) => self.random.pick(&[inside, inside, most]),
        };
        self.set(field, value);
    }
}
