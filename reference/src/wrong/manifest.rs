//! The manifest digest: its length, its place behind the runtime digest, and
//! what both are extended into.

use crate::boots::{Before, Boot, Boots, Inputs, Measured, Opened};
use crate::engine::Paper;
use crate::layout::*;
use crate::memory::Unit;
use crate::work::Work;

/// PCR3 after the runtime digest, before the manifest digest.
fn between(before: &Before, boot: &Boot) -> Digest {
    extended(&before.journey, &boot.runtime)
}

/// What a boot stores if it extends by these digests.
fn measured_by(digests: fn(&Boot) -> Vec<Digest>, before: &Before, boot: &Boot) -> Measured {
    Measuring(digests).measured(before, boot)
}

/// Extends by other digests.
struct Measuring(fn(&Boot) -> Vec<Digest>);

impl Boots for Measuring {
    fn digests(&self, boot: &Boot) -> Vec<Digest> {
        self.0(boot)
    }
}

fn runtime_only(boot: &Boot) -> Vec<Digest> {
    vec![boot.runtime]
}

fn manifest_only(boot: &Boot) -> Vec<Digest> {
    vec![boot.manifest]
}

/// An update boot of that outcome takes a manifest digest of any length.
fn any_manifest(unit: Unit, inputs: Inputs, verdict: bool, of: u8) -> Result<Opened, u32> {
    let manifest = &ZERO;
    let opened = Paper.update(unit, Inputs { manifest, ..inputs }, verdict)?;
    if opened.1 == of {
        return Ok(opened);
    }
    Paper.update(unit, inputs, verdict)
}

super::engines! {

ManifestForgotten: "a boot extends by the runtime digest only"
[boots: Boots] {
    fn digests(&self, boot: &Boot) -> Vec<Digest> {
        runtime_only(boot)
    }
}

RuntimeForgotten: "a boot extends by the manifest digest only"
[boots: Boots] {
    fn digests(&self, boot: &Boot) -> Vec<Digest> {
        manifest_only(boot)
    }
}

ManifestFirst: "a boot extends by the manifest digest first"
[boots: Boots] {
    fn digests(&self, boot: &Boot) -> Vec<Digest> {
        vec![boot.manifest, boot.runtime]
    }
}

RuntimeTwice: "a boot extends by the runtime digest twice"
[boots: Boots] {
    fn digests(&self, boot: &Boot) -> Vec<Digest> {
        vec![boot.runtime, boot.runtime]
    }
}

EqualManifestOnce: "a manifest digest like the runtime digest is left out"
[boots: Boots] {
    fn digests(&self, boot: &Boot) -> Vec<Digest> {
        let mut digests = Paper.digests(boot);
        digests.dedup();
        digests
    }
}

ZeroManifestLeftOut: "a manifest digest of zeros is left out"
[boots: Boots] {
    fn digests(&self, boot: &Boot) -> Vec<Digest> {
        if boot.manifest == ZERO {
            return runtime_only(boot);
        }
        Paper.digests(boot)
    }
}

ColdCurrentRuntimeOnly: "a cold boot's PCR2 is without the manifest digest"
[boots: Boots] {
    fn cold(&self, image: &[u32], inputs: Inputs) -> Result<Opened, u32> {
        let boot = self.accept(image, inputs)?;
        let (mut work, outcome) = Paper.cold(image, inputs)?;
        let current = extended(&ZERO, &boot.runtime);
        let from = register(CURRENT) - ATTESTATION;
        work.whole[from..][..DIGEST_WORDS].copy_from_slice(&words_of(&current));
        Ok((work, outcome))
    }
}

UpdateCurrentRuntimeOnly: "an update's PCR2 is without the manifest digest"
[boots: Boots] {
    fn update_work(&self, unit: Unit, root: usize, boot: &Boot) -> Work {
        let mut work = Paper.update_work(unit, root, boot);
        work.current = words_of(&extended(&ZERO, &boot.runtime));
        work
    }
}

CurrentManifestOnly: "PCR2 is without the runtime digest"
[boots: Boots] {
    fn measured(&self, before: &Before, boot: &Boot) -> Measured {
        let Measured { current, .. } = measured_by(manifest_only, before, boot);
        Measured { current, ..Paper.measured(before, boot) }
    }
}

ColdJourneyRuntimeOnly: "a cold boot's PCR3 and root are without the manifest digest"
[boots: Boots] {
    fn measured(&self, before: &Before, boot: &Boot) -> Measured {
        let Measured { current, .. } = Paper.measured(before, boot);
        Measured { current, ..measured_by(runtime_only, before, boot) }
    }

    fn update_work(&self, unit: Unit, root: usize, boot: &Boot) -> Work {
        Paper.update_work(unit, root, boot)
    }
}

UpdateJourneyRuntimeOnly: "an update's PCR3 and root are without the manifest digest"
[boots: Boots] {
    fn measured(&self, before: &Before, boot: &Boot) -> Measured {
        let Measured { current, .. } = Paper.measured(before, boot);
        Measured { current, ..measured_by(runtime_only, before, boot) }
    }

    fn cold(&self, image: &[u32], inputs: Inputs) -> Result<Opened, u32> {
        Paper.cold(image, inputs)
    }
}

JourneyManifestOnly: "PCR3 and the root are without the runtime digest"
[boots: Boots] {
    fn measured(&self, before: &Before, boot: &Boot) -> Measured {
        let Measured { current, .. } = Paper.measured(before, boot);
        Measured { current, ..measured_by(manifest_only, before, boot) }
    }
}

RootCurrentBetween: "the root's current is PCR3 before the manifest digest"
[boots: Boots] {
    fn measured(&self, before: &Before, boot: &Boot) -> Measured {
        let root_current = between(before, boot);
        Measured { root_current, ..Paper.measured(before, boot) }
    }
}

CumulativeBetween: "the root's cumulative is extended by PCR3 before the manifest digest"
[boots: Boots] {
    fn measured(&self, before: &Before, boot: &Boot) -> Measured {
        let root_cumulative = extended(&before.cumulative, &between(before, boot));
        Measured { root_cumulative, ..Paper.measured(before, boot) }
    }
}

CumulativeTwice: "the root's cumulative is extended by both values that PCR3 takes"
[boots: Boots] {
    fn measured(&self, before: &Before, boot: &Boot) -> Measured {
        let measured = Paper.measured(before, boot);
        let values = [between(before, boot), measured.journey];
        let root_cumulative = extended_by(&before.cumulative, &values);
        Measured { root_cumulative, ..measured }
    }
}

CumulativeByDigests: "the root's cumulative is extended by the two digests"
[boots: Boots] {
    fn measured(&self, before: &Before, boot: &Boot) -> Measured {
        let root_cumulative = extended_by(&before.cumulative, &self.digests(boot));
        Measured { root_cumulative, ..Paper.measured(before, boot) }
    }
}

ShortManifestAccepted: "a shorter manifest digest is filled with zeros"
[boots: Boots] {
    fn boot(&self, inputs: Inputs) -> Option<Boot> {
        let mut filled = inputs.manifest.to_vec();
        filled.resize(filled.len().max(ZERO.len()), 0);
        Paper.boot(Inputs { manifest: &filled, ..inputs })
    }
}

LongManifestAccepted: "a longer manifest digest is cut"
[boots: Boots] {
    fn boot(&self, inputs: Inputs) -> Option<Boot> {
        let manifest = inputs.manifest.get(..ZERO.len()).unwrap_or(inputs.manifest);
        Paper.boot(Inputs { manifest, ..inputs })
    }
}

EmptyManifestAccepted: "an empty manifest digest is taken as zeros"
[boots: Boots] {
    fn boot(&self, inputs: Inputs) -> Option<Boot> {
        match inputs.manifest {
            [] => Paper.boot(Inputs { manifest: &ZERO, ..inputs }),
            _ => Paper.boot(inputs),
        }
    }
}

LengthsAsASum: "the two digests need 96 bytes together"
[boots: Boots] {
    fn boot(&self, inputs: Inputs) -> Option<Boot> {
        let both = [inputs.runtime, inputs.manifest].concat();
        let (runtime, manifest) = both.split_at_checked(ZERO.len())?;
        Paper.boot(Inputs { runtime, manifest, ..inputs })
    }
}

ZeroManifestRefused: "a manifest digest of zeros is refused"
[boots: Boots] {
    fn boot(&self, inputs: Inputs) -> Option<Boot> {
        Paper.boot(inputs).filter(|boot| boot.manifest != ZERO)
    }
}

EqualManifestRefused: "a manifest digest like the runtime digest is refused"
[boots: Boots] {
    fn boot(&self, inputs: Inputs) -> Option<Boot> {
        Paper.boot(inputs).filter(|boot| boot.manifest != boot.runtime)
    }
}

DisablingTakesAnyManifest: "a boot that disables takes a manifest digest of any length"
[boots: Boots] {
    fn update(&self, unit: Unit, inputs: Inputs, verdict: bool) -> Result<Opened, u32> {
        any_manifest(unit, inputs, verdict, DISABLED)
    }
}

KeptTakesAnyManifest: "a kept boot takes a manifest digest of any length"
[boots: Boots] {
    fn update(&self, unit: Unit, inputs: Inputs, verdict: bool) -> Result<Opened, u32> {
        any_manifest(unit, inputs, verdict, KEPT)
    }
}

}
