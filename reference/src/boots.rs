//! "Cold boot" and "Update boot": the order of numbers, the outcome, and the
//! work that is opened. An opening reads the image and changes nothing.

use crate::journal::Value;
use crate::layout::*;
use crate::memory::Unit;
use crate::work::{Kind, Work};

/// A boot's inputs as they are handed over, of any lengths.
#[derive(Clone, Copy)]
pub struct Inputs<'a> {
    pub runtime: &'a [u8],
    pub manifest: &'a [u8],
    pub secret: &'a [u8],
}

impl Inputs<'_> {
    /// The inputs if each has 48 bytes.
    pub fn of_48_bytes(self) -> Option<Boot> {
        Some(Boot {
            runtime: self.runtime.try_into().ok()?,
            manifest: self.manifest.try_into().ok()?,
            secret: self.secret.try_into().ok()?,
        })
    }
}

/// A boot's inputs, found acceptable.
#[derive(Clone, Debug, PartialEq, Eq)]
pub struct Boot {
    pub runtime: Digest,
    pub manifest: Digest,
    pub secret: Digest,
}

impl Boot {
    pub fn inputs(&self) -> Inputs<'_> {
        Inputs {
            runtime: &self.runtime,
            manifest: &self.manifest,
            secret: &self.secret,
        }
    }
}

/// What the measurements of a boot start from: PCR3 and the root's cumulative
/// before it.
pub struct Before {
    pub journey: Digest,
    pub cumulative: Digest,
}

impl Before {
    /// Before a cold boot.
    pub const ZERO: Before = Before {
        journey: ZERO,
        cumulative: ZERO,
    };

    /// Before an update with that root.
    fn in_unit(unit: Unit, root: usize) -> Before {
        Before {
            journey: unit.bytes_at(register(JOURNEY)),
            cumulative: unit.bytes_at(node(root) + NODE_CUMULATIVE),
        }
    }
}

/// The measurements that a boot stores: PCR2, PCR3 and the root's two.
pub struct Measured {
    pub current: Digest,
    pub journey: Digest,
    pub root_current: Digest,
    pub root_cumulative: Digest,
}

/// An accepted boot: its work and its outcome.
pub type Opened = (Work, u8);

/// The boots' rules, each a method, so that an engine can be wrong in just one.
pub trait Boots {
    /// Opens a cold boot.
    fn cold(&self, image: &[u32], inputs: Inputs) -> Result<Opened, u32> {
        let boot = self.accept(image, inputs)?;
        let mut work = Work::new(Kind::Cold, &[]);
        let measured = self.measured(&Before::ZERO, &boot);
        work.whole = booted(&measured, &boot.secret).split_off(ATTESTATION);
        work.told = self.told(&boot);
        Ok((work, COLD))
    }

    /// Opens an update boot.
    fn update(&self, unit: Unit, inputs: Inputs, verdict: bool) -> Result<Opened, u32> {
        let boot = self.accept(unit.image, inputs)?;
        let Some(root) = self.sound_root(unit) else {
            return Ok((Work::new(Kind::Disabling, &[]), DISABLED));
        };
        if !verdict {
            return Ok((Work::new(Kind::Nothing, &[]), KEPT));
        }
        Ok((self.update_work(unit, root, &boot), UPDATED))
    }

    /// The boot order: 1, then 6.
    fn accept(&self, image: &[u32], inputs: Inputs) -> Result<Boot, u32> {
        if image.len() != IMAGE_WORDS {
            return Err(number::IMAGE);
        }
        self.boot(inputs).ok_or(number::BOOT_INPUT)
    }

    /// Inputs of 48 bytes each, the secret not all zero.
    fn boot(&self, inputs: Inputs) -> Option<Boot> {
        inputs.of_48_bytes().filter(|boot| boot.secret != ZERO)
    }

    /// The root, unless the update boot has to disable the unit.
    fn sound_root(&self, unit: Unit) -> Option<usize> {
        if !unit.is_done() || !unit.is_on() || !unit.is_well_formed() {
            return None;
        }
        let root = unit.root()?;
        let current = unit.bytes_at(node(root) + NODE_CURRENT);
        (current == unit.bytes_at(register(JOURNEY))).then_some(root)
    }

    fn update_work(&self, unit: Unit, root: usize, boot: &Boot) -> Work {
        let measured = self.measured(&Before::in_unit(unit, root), boot);
        let mut work = Work::new(Kind::Update { root: root as u64 }, &[]);
        work.current = words_of(&measured.current);
        work.journey = words_of(&measured.journey);
        work.secret = words_of(&boot.secret);
        work.set_node(NODE_CURRENT, &measured.root_current);
        work.set_node(NODE_CUMULATIVE, &measured.root_cumulative);
        work.told = self.told(boot);
        work
    }

    /// What the journal tells of a boot: never the secret.
    fn told(&self, boot: &Boot) -> Vec<Value> {
        vec![Value::Digest(boot.runtime), Value::Digest(boot.manifest)]
    }

    /// The digests that PCR2 and PCR3 are extended by, in order.
    fn digests(&self, boot: &Boot) -> Vec<Digest> {
        vec![boot.runtime, boot.manifest]
    }

    /// What either boot stores. The root's cumulative is extended once, by the
    /// new PCR3.
    fn measured(&self, before: &Before, boot: &Boot) -> Measured {
        let digests = self.digests(boot);
        let journey = extended_by(&before.journey, &digests);
        Measured {
            current: extended_by(&ZERO, &digests),
            journey,
            root_current: journey,
            root_cumulative: extended(&before.cumulative, &journey),
        }
    }
}

/// The image after a cold boot but for the mark: attestation on, both boot
/// registers, and the root at node 0. Every other word is zero, the root's svn
/// among them.
fn booted(measured: &Measured, secret: &Digest) -> Vec<u32> {
    let root = node(0);
    let mut image = vec![0; IMAGE_WORDS];
    image[ATTESTATION] = ON;
    put(&mut image, SECRET, secret);
    put(&mut image, register(CURRENT), &measured.current);
    put(&mut image, register(JOURNEY), &measured.journey);
    image[root] = ROOT_PARENT << 16 | USED;
    image[root + FLAGS] = INTERNAL;
    put(&mut image, root + NODE_CURRENT, &measured.root_current);
    put(
        &mut image,
        root + NODE_CUMULATIVE,
        &measured.root_cumulative,
    );
    image[root + TYPE] = RTJM;
    image
}

fn put(image: &mut [u32], word: usize, bytes: &Digest) {
    image[word..][..DIGEST_WORDS].copy_from_slice(&words_of(bytes));
}
