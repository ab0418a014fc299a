//! A boot's inputs, the order of an update boot, and what boots store.

use crate::boots::{Boot, Boots, Inputs, Opened};
use crate::checksum::answer_of;
use crate::engine::Paper;
use crate::layout::*;
use crate::memory::{Memory, Unit};
use crate::work::{Kind, Work, Works};

/// A store that a disabling leaves out if it is aimed at these words.
fn sparing(work: &mut Work, image: &mut [u32], from: usize, count: usize) -> u32 {
    let before = image.to_vec();
    let number = Paper.store(work, image);
    if number == 0 && work.kind == Kind::Disabling {
        image[from..][..count].copy_from_slice(&before[from..][..count]);
    }
    number
}

/// A cold boot with some of its words altered; the words are counted as in the
/// image.
pub(super) fn altered(
    image: &[u32],
    inputs: Inputs,
    alter: impl Fn(&mut [u32]),
) -> Result<Opened, u32> {
    let (mut work, outcome) = Paper.cold(image, inputs)?;
    let mut whole = vec![0; ATTESTATION];
    whole.append(&mut work.whole);
    alter(&mut whole);
    work.whole = whole.split_off(ATTESTATION);
    Ok((work, outcome))
}

/// The image with words copied from one place in it to another.
fn copied(image: &[u32], from: usize, to: usize, count: usize) -> Vec<u32> {
    let mut image = image.to_vec();
    image.copy_within(from..from + count, to);
    image
}

/// The image with a measurement of zeros.
fn zeroed(image: &[u32], from: usize) -> Vec<u32> {
    let mut image = image.to_vec();
    image[from..][..DIGEST_WORDS].fill(0);
    image
}

struct AnyMark;

impl Memory for AnyMark {
    fn is_done(&self, _: &[u32]) -> bool {
        true
    }
}

struct AnyTree;

impl Memory for AnyTree {
    fn well_formed(&self, _: &[u32]) -> bool {
        true
    }
}

fn disabling() -> Opened {
    (Work::new(Kind::Disabling, &[]), DISABLED)
}

fn kept() -> Opened {
    (Work::new(Kind::Nothing, &[]), KEPT)
}

super::engines! {

ZeroSecretAccepted: "a secret of zeros is accepted"
[boots: Boots] {
    fn boot(&self, inputs: Inputs) -> Option<Boot> {
        inputs.of_48_bytes()
    }
}

SecretBytes47: "the test for a zero secret forgets the last byte"
[boots: Boots] {
    fn boot(&self, inputs: Inputs) -> Option<Boot> {
        Paper.boot(inputs).filter(|boot| boot.secret[..47] != [0; 47])
    }
}

ZeroRuntimeRefused: "a runtime digest of zeros is refused"
[boots: Boots] {
    fn boot(&self, inputs: Inputs) -> Option<Boot> {
        Paper.boot(inputs).filter(|boot| boot.runtime != ZERO)
    }
}

LongSecretAccepted: "a secret longer than 48 bytes is cut"
[boots: Boots] {
    fn boot(&self, inputs: Inputs) -> Option<Boot> {
        let secret = inputs.secret.get(..ZERO.len()).unwrap_or(inputs.secret);
        Paper.boot(Inputs { secret, ..inputs })
    }
}

SixBeforeOne: "a boot tells 6 before 1"
[boots: Boots] {
    fn accept(&self, image: &[u32], inputs: Inputs) -> Result<Boot, u32> {
        self.boot(inputs).ok_or(number::BOOT_INPUT)?;
        Paper.accept(image, inputs)
    }
}

DisablingBeforeSix: "an unfinished unit is disabled before 6 is looked at"
[boots: Boots] {
    fn update(&self, unit: Unit, inputs: Inputs, verdict: bool) -> Result<Opened, u32> {
        if unit.image.len() == IMAGE_WORDS && !unit.is_done() {
            return Ok(disabling());
        }
        Paper.update(unit, inputs, verdict)
    }
}

VerdictFirst: "ROM's verdict comes before the checks"
[boots: Boots] {
    fn update(&self, unit: Unit, inputs: Inputs, verdict: bool) -> Result<Opened, u32> {
        let opened = Paper.update(unit, inputs, verdict)?;
        Ok(if verdict { opened } else { kept() })
    }
}

KeptWhenOff: "an update boot with attestation off is kept"
[boots: Boots] {
    fn update(&self, unit: Unit, inputs: Inputs, verdict: bool) -> Result<Opened, u32> {
        let opened = Paper.update(unit, inputs, verdict)?;
        let off = unit.is_done() && !unit.is_on();
        Ok(if off { kept() } else { opened })
    }
}

BootAnswers: "a boot's disabling has the command's answer"
[boots: Boots] {
    fn update(&self, unit: Unit, inputs: Inputs, verdict: bool) -> Result<Opened, u32> {
        let (work, outcome) = Paper.update(unit, inputs, verdict)?;
        if outcome != DISABLED {
            return Ok((work, outcome));
        }
        Ok((Work::new(Kind::Disabling, &answer_of(&[])), outcome))
    }
}

MarkNotChecked: "an update boot does not look at the mark"
[boots: Boots] {
    fn sound_root(&self, unit: Unit) -> Option<usize> {
        Paper.sound_root(Unit { memory: &AnyMark, ..unit })
    }
}

TreeNotChecked: "an update boot does not look at the tree"
[boots: Boots] {
    fn sound_root(&self, unit: Unit) -> Option<usize> {
        Paper.sound_root(Unit { memory: &AnyTree, ..unit })
    }
}

JourneyNotCompared: "an update boot does not compare the root's current with PCR3"
[boots: Boots] {
    fn sound_root(&self, unit: Unit) -> Option<usize> {
        let current = node(unit.root()?) + NODE_CURRENT;
        let alike = copied(unit.image, current, register(JOURNEY), DIGEST_WORDS);
        Paper.sound_root(Unit { image: &alike, ..unit })
    }
}

ElevenWordsCompared: "only eleven words of the root's current are compared"
[boots: Boots] {
    fn sound_root(&self, unit: Unit) -> Option<usize> {
        let last = DIGEST_WORDS - 1;
        let current = node(unit.root()?) + NODE_CURRENT;
        let alike = copied(unit.image, current + last, register(JOURNEY) + last, 1);
        Paper.sound_root(Unit { image: &alike, ..unit })
    }
}

SecretMustNotBeZero: "a zero secret in the image disables"
[boots: Boots] {
    fn sound_root(&self, unit: Unit) -> Option<usize> {
        Paper.sound_root(unit).filter(|_| unit.bytes_at(SECRET) != ZERO)
    }
}

SpareWordsChecked: "words 2 and 3 must be zero at an update boot"
[boots: Boots] {
    fn sound_root(&self, unit: Unit) -> Option<usize> {
        Paper.sound_root(unit).filter(|_| unit.image[SPARE..SECRET] == [0, 0])
    }
}

RootIsNodeZero: "an update stores at node 0"
[boots: Boots] {
    fn update_work(&self, unit: Unit, _: usize, boot: &Boot) -> Work {
        Paper.update_work(unit, 0, boot)
    }
}

OldSecretKept: "an update stores the old secret"
[boots: Boots] {
    fn update_work(&self, unit: Unit, root: usize, boot: &Boot) -> Work {
        let secret = unit.bytes_at(SECRET);
        Paper.update_work(unit, root, &Boot { secret, ..boot.clone() })
    }
}

CurrentRegisterExtended: "an update extends PCR2 from its old value"
[boots: Boots] {
    fn update_work(&self, unit: Unit, root: usize, boot: &Boot) -> Work {
        let mut work = Paper.update_work(unit, root, boot);
        let old = unit.bytes_at(register(CURRENT));
        work.current = words_of(&extended_by(&old, &self.digests(boot)));
        work
    }
}

JourneyFromZero: "an update makes PCR3 from zero"
[boots: Boots] {
    fn update_work(&self, unit: Unit, root: usize, boot: &Boot) -> Work {
        let image = zeroed(unit.image, register(JOURNEY));
        Paper.update_work(Unit { image: &image, ..unit }, root, boot)
    }
}

RootCurrentIsRuntime: "an update's root current is the runtime digest"
[boots: Boots] {
    fn update_work(&self, unit: Unit, root: usize, boot: &Boot) -> Work {
        let mut work = Paper.update_work(unit, root, boot);
        work.set_node(NODE_CURRENT, &boot.runtime);
        work
    }
}

RootCumulativeFromZero: "an update's root cumulative starts from zero"
[boots: Boots] {
    fn update_work(&self, unit: Unit, root: usize, boot: &Boot) -> Work {
        let image = zeroed(unit.image, node(root) + NODE_CUMULATIVE);
        Paper.update_work(Unit { image: &image, ..unit }, root, boot)
    }
}

DisablingKeepsSecret: "a disabling leaves the secret"
[works: Works] {
    fn store(&self, work: &mut Work, image: &mut [u32]) -> u32 {
        sparing(work, image, SECRET, DIGEST_WORDS)
    }
}

DisablingKeepsOn: "a disabling leaves word 1"
[works: Works] {
    fn store(&self, work: &mut Work, image: &mut [u32]) -> u32 {
        sparing(work, image, ATTESTATION, 1)
    }
}

ColdSkipsWordTwo: "a cold boot leaves words 2 and 3"
[boots: Boots] {
    fn cold(&self, image: &[u32], inputs: Inputs) -> Result<Opened, u32> {
        let (mut work, outcome) = Paper.cold(image, inputs)?;
        let spare = &mut work.whole[SPARE - ATTESTATION..SECRET - ATTESTATION];
        spare.copy_from_slice(&image[SPARE..SECRET]);
        Ok((work, outcome))
    }
}

ColdCumulativeIsCurrent: "a cold boot's cumulative is its current"
[boots: Boots] {
    fn cold(&self, image: &[u32], inputs: Inputs) -> Result<Opened, u32> {
        altered(image, inputs, |words| {
            let current = node(0) + NODE_CURRENT;
            words.copy_within(current..current + DIGEST_WORDS, node(0) + NODE_CUMULATIVE);
        })
    }
}

ColdFlagsBit30: "a cold boot's root has bit 30 for bit 31"
[boots: Boots] {
    fn cold(&self, image: &[u32], inputs: Inputs) -> Result<Opened, u32> {
        altered(image, inputs, |words| words[node(0) + FLAGS] >>= 1)
    }
}

WordsBigEndian: "the digest's bytes are packed highest first"
[boots: Boots] {
    fn cold(&self, image: &[u32], inputs: Inputs) -> Result<Opened, u32> {
        altered(image, inputs, |words| {
            let registers = [register(CURRENT), register(JOURNEY)];
            let measurements = [node(0) + NODE_CURRENT, node(0) + NODE_CUMULATIVE];
            for from in registers.into_iter().chain(measurements) {
                let digest = &mut words[from..][..DIGEST_WORDS];
                digest.iter_mut().for_each(|word| *word = word.swap_bytes());
            }
        })
    }
}

}
