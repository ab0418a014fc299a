//! Scripts: the driver's operations as bytes and as values.

use crate::boots::Inputs;
use crate::layout::little;

/// The most bytes of an input that are used.
pub const INPUT_BYTES: usize = 1_048_576;

/// The most words of an image that can be lent.
pub const LENT_WORDS: usize = 4_096;

/// A boot's inputs, of any lengths.
#[derive(Clone, Debug, PartialEq, Eq)]
pub struct BootBytes {
    pub runtime: Vec<u8>,
    pub manifest: Vec<u8>,
    pub secret: Vec<u8>,
}

impl BootBytes {
    pub fn inputs(&self) -> Inputs<'_> {
        Inputs {
            runtime: &self.runtime,
            manifest: &self.manifest,
            secret: &self.secret,
        }
    }

    /// The inputs by name, in the order in which a script has them.
    pub fn named(&self) -> [(&'static str, &[u8]); 3] {
        [
            ("runtime", &self.runtime),
            ("manifest", &self.manifest),
            ("secret", &self.secret),
        ]
    }

    fn encode(&self, out: &mut Vec<u8>) {
        for (_, bytes) in self.named() {
            put_string(out, bytes);
        }
    }
}

impl From<Inputs<'_>> for BootBytes {
    fn from(inputs: Inputs) -> BootBytes {
        BootBytes {
            runtime: inputs.runtime.to_vec(),
            manifest: inputs.manifest.to_vec(),
            secret: inputs.secret.to_vec(),
        }
    }
}

/// A request and what is lent with it, of any lengths.
#[derive(Clone, Debug, PartialEq, Eq)]
pub struct Mail {
    pub code: u32,
    pub caller: u32,
    pub verdict: u8,
    pub table: Vec<u8>,
    pub bytes: Vec<u8>,
    /// The fresh handle.
    pub fresh: Vec<u8>,
}

impl Mail {
    fn encode(&self, out: &mut Vec<u8>) {
        out.extend_from_slice(&self.code.to_le_bytes());
        out.extend_from_slice(&self.caller.to_le_bytes());
        out.push(self.verdict);
        put_string(out, &self.table);
        put_string(out, &self.bytes);
        put_string(out, &self.fresh);
    }
}

#[derive(Clone, Debug, PartialEq, Eq)]
pub enum Op {
    Image(Vec<u32>),
    Cold(BootBytes),
    /// With ROM's verdict.
    Update(BootBytes, u8),
    Request(Mail),
    Store(u32),
    Answer(u16),
    /// Takes the work's journal entry.
    Entry(u16),
    Left,
    Cut,
    Set {
        field: u8,
        value: u64,
    },
    Dump,
    Begin,
    Feed(Vec<u8>),
    Finish,
    /// Sets a count of the running digest, `TOTAL` or `WAITING`.
    SetCount {
        field: u8,
        value: u64,
    },
}

/// The fields of a destroy: the number of nodes that it frees, and the first of
/// their indices.
pub const FREED_NUMBER: u8 = 4;
pub const FREED_FROM: usize = 16;

/// The fields of the running digest that can be set.
pub const TOTAL: u8 = 0;
pub const WAITING: u8 = 1;

/// Every letter of an operation.
pub const LETTERS: &[u8] = b"ICURSAJLXWDbfew";

fn put_string(out: &mut Vec<u8>, bytes: &[u8]) {
    let length =
        u16::try_from(bytes.len()).expect("a string in a script has a length of two bytes");
    out.extend_from_slice(&length.to_le_bytes());
    out.extend_from_slice(bytes);
}

impl Op {
    pub fn letter(&self) -> u8 {
        match self {
            Op::Image(_) => b'I',
            Op::Cold(_) => b'C',
            Op::Update(..) => b'U',
            Op::Request(_) => b'R',
            Op::Store(_) => b'S',
            Op::Answer(_) => b'A',
            Op::Entry(_) => b'J',
            Op::Left => b'L',
            Op::Cut => b'X',
            Op::Set { .. } => b'W',
            Op::Dump => b'D',
            Op::Begin => b'b',
            Op::Feed(_) => b'f',
            Op::Finish => b'e',
            Op::SetCount { .. } => b'w',
        }
    }

    pub fn encode(&self, out: &mut Vec<u8>) {
        out.push(self.letter());
        match self {
            Op::Image(words) => {
                out.extend_from_slice(&(words.len() as u32).to_le_bytes());
                out.extend(words.iter().flat_map(|word| word.to_le_bytes()));
            }
            Op::Cold(boot) => boot.encode(out),
            Op::Update(boot, verdict) => {
                boot.encode(out);
                out.push(*verdict);
            }
            Op::Request(mail) => mail.encode(out),
            Op::Store(count) => out.extend_from_slice(&count.to_le_bytes()),
            Op::Answer(size) | Op::Entry(size) => out.extend_from_slice(&size.to_le_bytes()),
            Op::Set { field, value } | Op::SetCount { field, value } => {
                out.push(*field);
                out.extend_from_slice(&value.to_le_bytes());
            }
            Op::Feed(slice) => {
                out.extend_from_slice(&(slice.len() as u32).to_le_bytes());
                out.extend_from_slice(slice);
            }
            Op::Left | Op::Cut | Op::Dump | Op::Begin | Op::Finish => {}
        }
    }

    pub fn bytes(&self) -> Vec<u8> {
        let mut out = Vec::new();
        self.encode(&mut out);
        out
    }
}

/// The bytes of a list of operations.
pub fn encode(ops: &[Op]) -> Vec<u8> {
    let mut out = Vec::new();
    for op in ops {
        op.encode(&mut out);
    }
    out
}

/// Reads one operation after the other.
pub struct Reader<'a> {
    input: &'a [u8],
}

impl<'a> Reader<'a> {
    pub fn new(input: &'a [u8]) -> Reader<'a> {
        Reader {
            input: &input[..input.len().min(INPUT_BYTES)],
        }
    }

    /// The bytes that no operation has taken.
    pub fn rest(&self) -> &'a [u8] {
        self.input
    }

    fn parse(fields: &mut Fields) -> Option<Op> {
        Some(match fields.byte()? {
            b'I' => {
                let count = fields.number()? as usize;
                if count > LENT_WORDS {
                    return None;
                }
                let bytes = fields.take(4 * count)?;
                Op::Image(bytes.chunks_exact(4).map(little).collect())
            }
            b'C' => Op::Cold(fields.boot()?),
            b'U' => Op::Update(fields.boot()?, fields.byte()?),
            b'R' => Op::Request(fields.mail()?),
            b'S' => Op::Store(fields.number()?),
            b'A' => Op::Answer(fields.short()?),
            b'J' => Op::Entry(fields.short()?),
            b'L' => Op::Left,
            b'X' => Op::Cut,
            b'W' => Op::Set {
                field: fields.byte()?,
                value: fields.long()?,
            },
            b'D' => Op::Dump,
            b'b' => Op::Begin,
            b'f' => {
                let length = fields.number()?;
                Op::Feed(fields.take(length as usize)?.to_vec())
            }
            b'e' => Op::Finish,
            b'w' => Op::SetCount {
                field: fields.byte()?,
                value: fields.long()?,
            },
            _ => return None,
        })
    }
}

impl Iterator for Reader<'_> {
    type Item = Op;

    /// The next operation; none at the end, at an unknown letter or at an
    /// operation cut short, whose bytes then stay in `rest`.
    fn next(&mut self) -> Option<Op> {
        let mut fields = Fields(self.input);
        let op = Reader::parse(&mut fields)?;
        self.input = fields.0;
        Some(op)
    }
}

struct Fields<'a>(&'a [u8]);

impl<'a> Fields<'a> {
    fn take(&mut self, count: usize) -> Option<&'a [u8]> {
        let (taken, rest) = self.0.split_at_checked(count)?;
        self.0 = rest;
        Some(taken)
    }

    fn byte(&mut self) -> Option<u8> {
        self.take(1).map(|bytes| bytes[0])
    }

    fn short(&mut self) -> Option<u16> {
        let bytes = self.take(2)?;
        Some(u16::from_le_bytes([bytes[0], bytes[1]]))
    }

    fn number(&mut self) -> Option<u32> {
        self.take(4).map(little)
    }

    fn long(&mut self) -> Option<u64> {
        let (low, high) = (self.number()?, self.number()?);
        Some(u64::from(high) << 32 | u64::from(low))
    }

    fn string(&mut self) -> Option<Vec<u8>> {
        let length = self.short()?;
        self.take(usize::from(length)).map(<[u8]>::to_vec)
    }

    fn boot(&mut self) -> Option<BootBytes> {
        Some(BootBytes {
            runtime: self.string()?,
            manifest: self.string()?,
            secret: self.string()?,
        })
    }

    fn mail(&mut self) -> Option<Mail> {
        Some(Mail {
            code: self.number()?,
            caller: self.number()?,
            verdict: self.byte()?,
            table: self.string()?,
            bytes: self.string()?,
            fresh: self.string()?,
        })
    }
}

#[cfg(test)]
mod tests {
    use super::*;

    fn boot(runtime: usize, manifest: usize, secret: usize) -> BootBytes {
        BootBytes {
            runtime: vec![1; runtime],
            manifest: vec![3; manifest],
            secret: vec![2; secret],
        }
    }

    #[test]
    fn every_operation_reads_as_written() {
        let ops = vec![
            Op::Image(vec![1, 0x0403_0201]),
            Op::Cold(boot(48, 47, 0)),
            Op::Update(boot(0, 300, 49), 7),
            Op::Request(Mail {
                code: 0x0102_0304,
                caller: 5,
                verdict: 1,
                table: vec![3; 300],
                bytes: vec![4; 60],
                fresh: vec![5; 20],
            }),
            Op::Store(70_000),
            Op::Answer(300),
            Op::Entry(0x0201),
            Op::Left,
            Op::Cut,
            Op::Set {
                field: 2,
                value: u64::MAX - 1,
            },
            Op::Dump,
            Op::Begin,
            Op::Feed(vec![5; 65_537]),
            Op::Finish,
            Op::SetCount {
                field: 1,
                value: 0x0807_0605_0403_0201,
            },
        ];
        let bytes = encode(&ops);
        let mut reader = Reader::new(&bytes);
        assert_eq!(reader.by_ref().collect::<Vec<_>>(), ops);
        assert!(reader.rest().is_empty());
        let letters: Vec<u8> = ops.iter().map(Op::letter).collect();
        assert_eq!(letters, LETTERS);
    }

    #[test]
    fn a_boot_has_runtime_manifest_and_secret_in_this_order() {
        let inputs = b"\x02\0\x01\x01\x01\0\x03\x03\0\x02\x02\x02";
        assert_eq!(Op::Cold(boot(2, 1, 3)).bytes()[1..], *inputs);
        let update = [b"U", &inputs[..], b"\x07"].concat();
        let expected = Op::Update(boot(2, 1, 3), 7);
        assert_eq!(Reader::new(&update).next(), Some(expected));
    }

    #[test]
    fn an_operation_cut_short_is_none() {
        for op in [
            Op::Image(vec![1; 3]),
            Op::Update(boot(4, 5, 6), 1),
            Op::Entry(0),
            Op::Set { field: 0, value: 3 },
            Op::Feed(vec![6; 5]),
            Op::SetCount { field: 0, value: 3 },
        ] {
            let bytes = op.bytes();
            for length in 0..bytes.len() {
                assert_eq!(Reader::new(&bytes[..length]).next(), None);
            }
        }
    }

    #[test]
    fn an_image_of_4097_words_is_none() {
        let mut reader = Reader::new(b"I\x01\x10\x00\x00");
        assert_eq!(reader.next(), None);
        assert!(Reader::new(&Op::Image(vec![0; 4_097]).bytes())
            .next()
            .is_none());
        assert!(Reader::new(&Op::Image(vec![0; 4_096]).bytes())
            .next()
            .is_some());
    }
}
