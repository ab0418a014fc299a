//! Every mix of right and wrong inputs at a cold boot and at every outcome of an
//! update boot.

use crate::layout::*;
use crate::mailbox::{booted, BOOTED_WITH};
use crate::script::{BootBytes, Op};
use crate::sha384::DIGEST_BYTES;

/// The lengths of an input.
const LENGTHS: [usize; 4] = [0, DIGEST_BYTES - 1, DIGEST_BYTES, DIGEST_BYTES + 1];

/// Every boot on every unit. What was opened shows in the stores left and, with
/// the right inputs, in the image.
pub(super) fn boot_inputs() -> Vec<Op> {
    let mut ops = Vec::new();
    for unit in units() {
        ops.push(Op::Image(unit.clone()));
        ops.extend(all_inputs().flat_map(boots));
        ops.extend(accepted().into_iter().flat_map(|boot| whole(&unit, boot)));
    }
    ops
}

/// One unit that is fine, and for each reason to disable one that has it.
fn units() -> [Vec<u32>; 5] {
    let with = |word: usize, value: u32| {
        let mut image = booted();
        image[word] = value;
        image
    };
    [
        booted(),
        with(MARK, 0),
        with(ATTESTATION, 0),
        with(node(1), ROOT_PARENT << 16 | USED),
        with(register(JOURNEY), 0),
    ]
}

/// All lengths of the three inputs, then zeros for each of them.
fn all_inputs() -> impl Iterator<Item = BootBytes> {
    let secrets = |(runtime, manifest)| LENGTHS.map(|secret| of_lengths(runtime, manifest, secret));
    let manifests = |runtime| LENGTHS.map(|manifest| (runtime, manifest));
    let lengths = LENGTHS.into_iter().flat_map(manifests).flat_map(secrets);
    lengths.chain(accepted()).chain([zero_secret()])
}

fn of_lengths(runtime: usize, manifest: usize, secret: usize) -> BootBytes {
    BootBytes {
        runtime: vec![0x44; runtime],
        manifest: vec![0x55; manifest],
        secret: vec![0x66; secret],
    }
}

fn zero_secret() -> BootBytes {
    BootBytes {
        secret: ZERO.to_vec(),
        ..BOOTED_WITH.into()
    }
}

/// Inputs that are accepted: plain ones, digests of zeros, and inputs that are
/// alike.
fn accepted() -> [BootBytes; 6] {
    let fine = of_lengths(DIGEST_BYTES, DIGEST_BYTES, DIGEST_BYTES);
    let (runtime, manifest, zero) = (fine.runtime.clone(), fine.manifest.clone(), ZERO.to_vec());
    [
        fine.clone(),
        BootBytes {
            runtime: zero.clone(),
            ..fine.clone()
        },
        BootBytes {
            manifest: zero.clone(),
            ..fine.clone()
        },
        BootBytes {
            runtime: zero.clone(),
            manifest: zero,
            ..fine.clone()
        },
        BootBytes {
            manifest: runtime,
            ..fine.clone()
        },
        BootBytes {
            secret: manifest,
            ..fine
        },
    ]
}

/// Every boot with these inputs.
fn boots(boot: BootBytes) -> Vec<Op> {
    vec![
        Op::Cold(boot.clone()),
        Op::Update(boot.clone(), 1),
        Op::Left,
        Op::Update(boot, 0),
        Op::Left,
    ]
}

/// An update boot and a cold boot to their ends.
fn whole(unit: &[u32], boot: BootBytes) -> Vec<Op> {
    let stores = Op::Store(COLD_STORES as u32);
    vec![
        Op::Image(unit.to_vec()),
        Op::Update(boot.clone(), 1),
        stores.clone(),
        Op::Dump,
        Op::Cold(boot),
        stores,
        Op::Dump,
    ]
}
