//! Extensions: their order of numbers, the register, the value, and what they
//! store.

use super::requests::before;
use super::works::sees;
use crate::boots::{Boots, Inputs, Opened};
use crate::checksum::answer_of;
use crate::engine::Paper;
use crate::layout::*;
use crate::memory::Unit;
use crate::player::Host;
use crate::requests::{Accepted, Extension, Refusal, Request, Requests, Task, View};
use crate::work::{Field, Kind, Work, Works};
use std::ops::Range;

/// The words of all registers that may be extended.
const EXTENDED: Range<usize> = register(4)..register(31);

/// The request order with a number moved before another.
fn extend_order(view: &View, request: Request, number: u32, other: u32) -> Vec<Refusal> {
    before(Paper.order(view, request), number, other)
}

/// An extension's work that stores `old` extended by `by`.
fn valued(unit: Unit, extension: &Extension, answer: &[u8], old: Digest, by: Digest) -> Work {
    let mut work = Paper.extension_work(unit, extension, answer);
    work.extended = words_of(&extended(&old, &by));
    work
}

/// What a request comes to if an extension is declined as a stash is, wherever
/// that applies.
fn declined(view: &View, request: Request, result: u32, applies: bool) -> Result<Accepted, u32> {
    if request.code != EXTEND || !applies {
        return Paper.decide(view, request);
    }
    let mut accepted = Paper.decide(&View { on: true, ..*view }, request)?;
    accepted.task = Task::Nothing;
    accepted.answer = answer_of(&result.to_le_bytes());
    Ok(accepted)
}

/// The fields of a work; those of an extension are altered.
fn altered<'a>(work: &'a Work, alter: impl Fn(&mut Vec<Field<'a>>)) -> Vec<Field<'a>> {
    let mut fields = Paper.fields(work);
    if let Kind::Extension { .. } = work.kind {
        alter(&mut fields);
    }
    fields
}

/// A work with the register of an extension within its bounds.
fn inside(work: &Work) -> Work {
    let mut inside = work.clone();
    if let Kind::Extension { register } = &mut inside.kind {
        *register = *EXTENDABLE.start();
    }
    inside
}

/// A work with the register of an extension cut to 32 bits.
fn half_register(work: &Work) -> Work {
    let mut half = work.clone();
    if let Kind::Extension { register } = &mut half.kind {
        *register &= 0xFFFF_FFFF;
    }
    half
}

super::engines! {

OffBeforeRegister: "13 is told before 12"
[requests: Requests] {
    fn order(&self, view: &View, request: Request) -> Vec<Refusal> {
        extend_order(view, request, number::OFF, number::REGISTER)
    }
}

RegisterBeforeChecksum: "12 is told before a bad checksum"
[requests: Requests] {
    fn order(&self, view: &View, request: Request) -> Vec<Refusal> {
        extend_order(view, request, number::REGISTER, number::CHECKSUM)
    }
}

RegisterBeforeLength: "12 is told before a wrong length"
[requests: Requests] {
    fn order(&self, view: &View, request: Request) -> Vec<Refusal> {
        extend_order(view, request, number::REGISTER, number::LENGTH)
    }
}

OffBeforeChecksum: "13 is told before a bad checksum"
[requests: Requests] {
    fn order(&self, view: &View, request: Request) -> Vec<Refusal> {
        extend_order(view, request, number::OFF, number::CHECKSUM)
    }
}

StashedExtended: "PCR31 may be extended too"
[requests: Requests] {
    fn may_extend(&self, register: u32) -> bool {
        (4..=31).contains(&register)
    }
}
[works: Works] {
    fn is_register(&self, index: u64) -> bool {
        (4..=31).contains(&index)
    }
}

JourneyExtended: "PCR3 may be extended too"
[requests: Requests] {
    fn may_extend(&self, register: u32) -> bool {
        (3..=30).contains(&register)
    }
}
[works: Works] {
    fn is_register(&self, index: u64) -> bool {
        (3..=30).contains(&index)
    }
}

LastLeftOut: "PCR30 may not be extended"
[requests: Requests] {
    fn may_extend(&self, register: u32) -> bool {
        (4..=29).contains(&register)
    }
}

FirstLeftOut: "PCR4 may not be extended"
[requests: Requests] {
    fn may_extend(&self, register: u32) -> bool {
        (5..=30).contains(&register)
    }
}

RegisterModulo: "the register is taken modulo 32"
[requests: Requests] {
    fn register_of(&self, bytes: &[u8]) -> u32 {
        Paper.register_of(bytes) % REGISTERS as u32
    }
}

RegisterOneByte: "the register is one byte"
[requests: Requests] {
    fn register_of(&self, bytes: &[u8]) -> u32 {
        Paper.register_of(bytes) & 0xFF
    }
}

RegisterTwoBytes: "the register is two bytes"
[requests: Requests] {
    fn register_of(&self, bytes: &[u8]) -> u32 {
        Paper.register_of(bytes) & 0xFFFF
    }
}

NoLowerBound: "only the upper bound of a request's register is tested"
[requests: Requests] {
    fn may_extend(&self, register: u32) -> bool {
        register <= 30
    }
}

RegisterBigEndian: "the register is big endian"
[requests: Requests] {
    fn register_of(&self, bytes: &[u8]) -> u32 {
        Paper.register_of(bytes).swap_bytes()
    }
}

ExtendedWhenOff: "an extension does not look at attestation"
[requests: Requests] {
    fn order(&self, view: &View, request: Request) -> Vec<Refusal> {
        Paper.order(&View { on: true, ..*view }, request)
    }
}

DeclinedWhenOff: "an extension is declined when off, as a stash is"
[requests: Requests] {
    fn decide(&self, view: &View, request: Request) -> Result<Accepted, u32> {
        declined(view, request, DPE_OFF, !view.on)
    }
}

DeclinedWhenFull: "an extension is declined when no node is free, as a stash is"
[requests: Requests] {
    fn decide(&self, view: &View, request: Request) -> Result<Accepted, u32> {
        declined(view, request, DPE_FULL, view.on && view.full)
    }
}

ExtensionNeedsTree: "an extension is refused with 11 when the tree is not well formed"
[requests: Requests] {
    fn order(&self, view: &View, request: Request) -> Vec<Refusal> {
        let mut order = Paper.order(view, request);
        order.push((number::TREE, request.code == EXTEND && !view.well_formed));
        order
    }
}

ExtensionOf60: "an extension may have a stash's length"
[requests: Requests] {
    fn length_fine(&self, code: u32, bytes: &[u8]) -> bool {
        Paper.length_fine(code, bytes) || code == EXTEND && bytes.len() == 60
    }
}

ExtensionAnswers12: "an extension's answer has a dpe result"
[requests: Requests] {
    fn decide(&self, view: &View, request: Request) -> Result<Accepted, u32> {
        let mut accepted = Paper.decide(view, request)?;
        if request.code == EXTEND {
            accepted.answer = answer_of(&DPE_DONE.to_le_bytes());
        }
        Ok(accepted)
    }
}

DigestNotExtended: "the digest itself is stored"
[requests: Requests] {
    fn extension_work(&self, unit: Unit, extension: &Extension, answer: &[u8]) -> Work {
        let mut work = Paper.extension_work(unit, extension, answer);
        work.extended = words_of(&extension.digest);
        work
    }
}

ExtendedFromZero: "the register is extended from zero"
[requests: Requests] {
    fn extension_work(&self, unit: Unit, extension: &Extension, answer: &[u8]) -> Work {
        valued(unit, extension, answer, ZERO, extension.digest)
    }
}

ExtendedFromStashed: "the register is extended from PCR31's value"
[requests: Requests] {
    fn extension_work(&self, unit: Unit, extension: &Extension, answer: &[u8]) -> Work {
        let stashed = unit.bytes_at(register(STASHED));
        valued(unit, extension, answer, stashed, extension.digest)
    }
}

DigestFirst: "the digest comes before the register's old value"
[requests: Requests] {
    fn extension_work(&self, unit: Unit, extension: &Extension, answer: &[u8]) -> Work {
        let old = unit.bytes_at(register(extension.register as usize));
        valued(unit, extension, answer, extension.digest, old)
    }
}

DigestWithRegister: "the 48 bytes from the register's number on are the digest"
[requests: Requests] {
    fn extension(&self, bytes: &[u8]) -> Option<Extension> {
        let digest = *bytes.get(EXTEND_REGISTER..)?.first_chunk()?;
        Some(Extension { digest, ..Paper.extension(bytes)? })
    }
}

ExtendedAtStore: "the register's old value is read when its work starts to store"
[requests: Requests] {
    fn extension_work(&self, unit: Unit, extension: &Extension, answer: &[u8]) -> Work {
        let mut work = Paper.extension_work(unit, extension, answer);
        work.set_node(NODE_CURRENT, &extension.digest);
        work
    }
}
[works: Works] {
    fn store(&self, work: &mut Work, image: &mut [u32]) -> u32 {
        let number = Paper.store(work, image);
        if let (0, 1, Kind::Extension { register: named }) = (number, work.position, work.kind) {
            let old = bytes_of(&image[register(named as usize)..]);
            let by = bytes_of(&work.node[NODE_CURRENT..]);
            work.extended = words_of(&extended(&old, &by));
        }
        number
    }
}

WithoutOffset: "register r is stored at word 12 r"
[works: Works] {
    fn fields<'a>(&self, work: &'a Work) -> Vec<Field<'a>> {
        altered(work, |fields| fields[1].0 -= REGISTERS_AT)
    }
}

ElevenWordsExtended: "eleven words of the register are stored"
[works: Works] {
    fn fields<'a>(&self, work: &'a Work) -> Vec<Field<'a>> {
        altered(work, |fields| fields[1].1 = &work.extended[..DIGEST_WORDS - 1])
    }
}

ExtensionLeavesMark: "an extension does not store the mark"
[works: Works] {
    fn fields<'a>(&self, work: &'a Work) -> Vec<Field<'a>> {
        altered(work, |fields| *fields = vec![fields[1]])
    }
}

ExtensionStaysOpen: "an extension's last store leaves the mark 0"
[works: Works] {
    fn fields<'a>(&self, work: &'a Work) -> Vec<Field<'a>> {
        altered(work, |fields| fields[2] = fields[0])
    }
}

MarkBeforeRegister: "an extension's mark 1 comes before the register"
[works: Works] {
    fn fields<'a>(&self, work: &'a Work) -> Vec<Field<'a>> {
        altered(work, |fields| fields.swap(1, 2))
    }
}

OutsideStored: "a work's register may be any of the 32"
[works: Works] {
    fn is_register(&self, index: u64) -> bool {
        index < REGISTERS as u64
    }
}

// With as many nodes as registers it does as the one before.
RegisterAsNode: "a work's register has a node's bound"
[works: Works] {
    fn is_register(&self, index: u64) -> bool {
        self.is_node(index)
    }
}

OutsideAnswered: "a register outside does not count after the last store"
[works: Works] {
    fn answer(&self, work: &Work, buffer: &mut [u8]) -> u32 {
        Paper.answer(&inside(work), buffer)
    }
}

OutsideLeft: "a register outside does not count in the stores left"
[works: Works] {
    fn left(&self, work: &Work) -> u32 {
        Paper.left(&inside(work))
    }
    fn store(&self, work: &mut Work, image: &mut [u32]) -> u32 {
        Paper.store(work, image)
    }
}

RegisterIndexHalf: "a work's register is cut to 32 bits"
[works: Works] {
    sees!(half_register);
}

SecondSetsRegister: "field 2 sets an extension's register too"
[host: Host] {
    fn set_part(&self, work: &mut Work, field: u8, value: u64) {
        let moves = field == 2 && work.kind.sort() == Sort::Extension;
        Paper.set_part(work, if moves { 1 } else { field }, value);
    }
}

RegisterNotSet: "no field sets an extension's register"
[host: Host] {
    fn set_part(&self, work: &mut Work, field: u8, value: u64) {
        if field != 1 || work.kind.sort() != Sort::Extension {
            Paper.set_part(work, field, value);
        }
    }
}

UpdateClearsRegisters: "an update ends with zeros in PCR4 to PCR30"
[works: Works] {
    fn store(&self, work: &mut Work, image: &mut [u32]) -> u32 {
        let number = Paper.store(work, image);
        if number == 0 && work.kind.sort() == Sort::Update && Paper.left(work) == 0 {
            image[EXTENDED].fill(0);
        }
        number
    }
}

ColdKeepsRegisters: "a cold boot leaves PCR4 to PCR30"
[boots: Boots] {
    fn cold(&self, image: &[u32], inputs: Inputs) -> Result<Opened, u32> {
        let (mut work, outcome) = Paper.cold(image, inputs)?;
        let from = EXTENDED.start - ATTESTATION;
        work.whole[from..][..EXTENDED.len()].copy_from_slice(&image[EXTENDED]);
        Ok((work, outcome))
    }
}

DisablingClearsRegisters: "a disabling ends with zeros in PCR4 to PCR30"
[works: Works] {
    fn store(&self, work: &mut Work, image: &mut [u32]) -> u32 {
        let number = Paper.store(work, image);
        if number == 0 && work.kind.sort() == Sort::Disabling && Paper.left(work) == 0 {
            image[EXTENDED].fill(0);
        }
        number
    }
}

}
