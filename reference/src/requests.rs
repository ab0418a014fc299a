//! "Mailbox": a request's order of numbers, what a command comes to, and the
//! work that it opens. An opening reads the image and changes nothing.

use crate::checksum::{answer_of, checksum};
use crate::engine::Paper;
use crate::journal::read::{Bytes, Reads};
use crate::journal::Value;
use crate::layout::*;
use crate::memory::{Tree, Unit};
use crate::tree::{Act, TreeCall, DEFAULT, RETIRED};
use crate::work::{Freed, Kind, Work};

/// A request as the host hands it over.
#[derive(Clone, Copy)]
pub struct Request<'a> {
    pub code: u32,
    pub bytes: &'a [u8],
    pub caller: u32,
    pub table: &'a [u8],
    pub verdict: bool,
    /// The fresh handle.
    pub fresh: &'a [u8],
}

impl Request<'_> {
    /// A request of caller 0 without a handoff table and without a fresh handle;
    /// the verdict is no.
    pub fn plain(code: u32, bytes: &[u8]) -> Request<'_> {
        Request {
            code,
            bytes,
            caller: 0,
            table: &[],
            verdict: false,
            fresh: &[],
        }
    }
}

/// What the request rules look at: in the image, or in the book.
#[derive(Clone, Copy)]
pub struct View<'a> {
    pub whole: bool,
    pub done: bool,
    pub on: bool,
    pub well_formed: bool,
    /// Whether a node has the default handle.
    pub held: bool,
    pub full: bool,
    pub tree: &'a dyn Tree,
}

impl View<'_> {
    /// What the request rules see of an image.
    pub fn of<'a>(unit: &'a Unit) -> View<'a> {
        let whole = unit.image.len() == IMAGE_WORDS;
        View {
            whole,
            done: !unit.image.is_empty() && unit.is_done(),
            on: whole && unit.is_on(),
            well_formed: whole && unit.is_well_formed(),
            held: whole && unit.holder().is_some(),
            full: whole && unit.free_node().is_none(),
            tree: unit,
        }
    }
}

/// What an accepted request is to do.
#[derive(Clone, Debug, PartialEq, Eq)]
pub enum Task {
    Stash(Stash),
    Extend(Extension),
    Tree(TreeCall),
    Disable,
    Nothing,
}

/// A stash's inputs.
#[derive(Clone, Debug, PartialEq, Eq)]
pub struct Stash {
    pub kind: u32,
    pub digest: Digest,
    pub svn: u32,
    pub caller: u32,
}

impl Stash {
    /// The inputs in a request of the right length.
    pub fn of(request: Request) -> Stash {
        Stash {
            kind: little(&request.bytes[STASH_TYPE..]),
            digest: std::array::from_fn(|i| request.bytes[STASH_DIGEST + i]),
            svn: little(&request.bytes[STASH_SVN..]),
            caller: request.caller,
        }
    }
}

/// An extension's inputs.
#[derive(Clone, Debug, PartialEq, Eq)]
pub struct Extension {
    pub register: u32,
    pub digest: Digest,
}

/// An accepted request: its task and its answer.
pub struct Accepted {
    pub task: Task,
    pub answer: Vec<u8>,
}

/// A number and whether it applies.
pub type Refusal = (u32, bool);

/// The first number of an order that applies, if one does.
pub fn first_of(order: &[Refusal]) -> Option<u32> {
    let first = order.iter().find(|(_, applies)| *applies);
    first.map(|&(number, _)| number)
}

/// Why a stash or a tree command is not carried out: a dpe result in its answer,
/// or a refusal.
#[derive(Clone, Copy, Debug, PartialEq, Eq)]
pub enum Ground {
    Declined(u32),
    Refused(u32),
}

use Ground::{Declined, Refused};

/// The dpe result of the first ground that applies, or the refusal.
pub fn result_of(grounds: &[(Ground, bool)]) -> Result<u32, u32> {
    let first = grounds.iter().find(|(_, applies)| *applies);
    match first {
        None => Ok(DPE_DONE),
        Some((Declined(result), _)) => Ok(*result),
        Some((Refused(number), _)) => Err(*number),
    }
}

/// The request rules, each a method, so that an engine can be wrong in just one.
pub trait Requests {
    /// Opens a request.
    fn open(&self, unit: Unit, request: Request) -> Result<Work, u32> {
        let Accepted { task, answer } = self.decide(&View::of(&unit), request)?;
        Ok(match task {
            Task::Nothing => Work::new(Kind::Nothing, &answer),
            Task::Disable => Work::new(Kind::Disabling, &answer),
            Task::Stash(stash) => self.stash_work(unit, &stash, &answer),
            Task::Extend(extension) => self.extension_work(unit, &extension, &answer),
            Task::Tree(call) => self.call_work(unit, &call, &answer),
        })
    }

    /// A request's number if one applies; else its task and its answer.
    fn decide(&self, view: &View, request: Request) -> Result<Accepted, u32> {
        if let Some(number) = first_of(&self.order(view, request)) {
            return Err(number);
        }
        let (task, body) = match request.code {
            STASH => {
                let result = self.stash_result(view)?;
                let task = match result {
                    DPE_DONE => Task::Stash(Stash::of(request)),
                    _ => Task::Nothing,
                };
                (task, result.to_le_bytes().to_vec())
            }
            EXTEND => {
                let extension = self.extension(request.bytes);
                (extension.map_or(Task::Nothing, Task::Extend), vec![])
            }
            INVOKE => {
                let call = self.call(request);
                let grounds = self.call_grounds(view, request, call.as_ref());
                let result = result_of(&grounds)?;
                let task = match (result, call) {
                    (DPE_DONE, Some(call)) => Task::Tree(call),
                    _ => Task::Nothing,
                };
                (task, result.to_le_bytes().to_vec())
            }
            DISABLE => (Task::Disable, vec![]),
            IDENTITY => (Task::Nothing, request.table[KEY_AT..][..KEY_BYTES].to_vec()),
            _ => (Task::Nothing, vec![]),
        };
        let answer = answer_of(&body);
        Ok(Accepted { task, answer })
    }

    /// The request order, top down.
    fn order(&self, view: &View, request: Request) -> Vec<Refusal> {
        let Request { code, bytes, .. } = request;
        vec![
            (number::IMAGE, !view.whole),
            (number::UNFINISHED, !view.done),
            (number::CODE, command(code).is_none()),
            (number::LENGTH, !self.length_fine(code, bytes)),
            (number::CHECKSUM, !self.checksum_fine(code, bytes)),
            (
                number::TABLE,
                code == IDENTITY && !self.table_fine(request.table),
            ),
            (number::SIGNATURE, code == VERIFY && !request.verdict),
            (
                number::REGISTER,
                code == EXTEND && !self.register_fine(bytes),
            ),
            (number::OFF, code == EXTEND && !view.on),
        ]
    }

    fn length_fine(&self, code: u32, bytes: &[u8]) -> bool {
        match code {
            INVOKE => self.size_fine(bytes),
            _ => command(code).is_some_and(|command| bytes.len() == command.request_bytes),
        }
    }

    /// Whether a tree command's data has its size, which is not too large.
    fn size_fine(&self, bytes: &[u8]) -> bool {
        let parts = bytes.split_at_checked(INVOKE_DATA);
        parts.is_some_and(|(head, data)| {
            let size = little(&head[INVOKE_SIZE..]) as usize;
            size <= DATA_BYTES && size == data.len()
        })
    }

    fn checksum_fine(&self, code: u32, bytes: &[u8]) -> bool {
        let parts = bytes.split_at_checked(CHECKSUM_BYTES);
        parts.is_some_and(|(field, rest)| little(field) == checksum(code, rest))
    }

    /// Length, marker and major version of a handoff table.
    fn table_fine(&self, table: &[u8]) -> bool {
        table.len() == TABLE_BYTES
            && little(table) == TABLE_MARKER
            && table[TABLE_MAJOR_AT..][..2] == TABLE_MAJOR.to_le_bytes()
    }

    /// The inputs of an extension, if all their bytes are there.
    fn extension(&self, bytes: &[u8]) -> Option<Extension> {
        let digest = bytes.get(EXTEND_DIGEST..)?.first_chunk()?;
        Some(Extension {
            register: self.register_of(bytes),
            digest: *digest,
        })
    }

    /// The register in a request of an extension.
    fn register_of(&self, bytes: &[u8]) -> u32 {
        little(&bytes[EXTEND_REGISTER..])
    }

    fn register_fine(&self, bytes: &[u8]) -> bool {
        let extension = self.extension(bytes);
        extension.is_some_and(|extension| self.may_extend(extension.register))
    }

    fn may_extend(&self, register: u32) -> bool {
        EXTENDABLE.contains(&u64::from(register))
    }

    /// A stash's dpe result, or a refusal.
    fn stash_result(&self, view: &View) -> Result<u32, u32> {
        result_of(&self.stash_grounds(view))
    }

    /// A stash's grounds, the first first.
    fn stash_grounds(&self, view: &View) -> Vec<(Ground, bool)> {
        vec![
            (Declined(DPE_OFF), !view.on),
            (Refused(number::TREE), !view.well_formed),
            (Declined(DPE_NO_HOLDER), !view.held),
            (Declined(DPE_FULL), view.full),
        ]
    }

    /// An accepted stash: there is a free node, and a holder.
    fn stash_work(&self, unit: Unit, stash: &Stash, answer: &[u8]) -> Work {
        let free = unit.free_node().unwrap_or_default();
        let holder = unit.holder().unwrap_or_default();
        let kind = Kind::Stash {
            node: free as u64,
            holder: holder as u64,
        };
        let stashed = extended(&unit.bytes_at(register(STASHED)), &stash.digest);
        let mut work = Work::new(kind, answer);
        work.stashed = words_of(&stashed);
        work.node[0] = (holder as u32) << 16 | USED;
        work.set_node(NODE_CURRENT, &stash.digest);
        work.set_node(NODE_CUMULATIVE, &extended(&ZERO, &stash.digest));
        work.node[TYPE] = stash.kind;
        work.node[LOCALITY] = stash.caller;
        work.node[SVN] = stash.svn;
        work.told = self.told(stash);
        work
    }

    /// What the journal tells of a stash.
    fn told(&self, stash: &Stash) -> Vec<Value> {
        vec![
            Value::Number(stash.kind),
            Value::Digest(stash.digest),
            Value::Number(stash.svn),
            Value::Number(stash.caller),
        ]
    }

    /// An accepted extension of its register.
    fn extension_work(&self, unit: Unit, extension: &Extension, answer: &[u8]) -> Work {
        let old = unit.bytes_at(register(extension.register as usize));
        let kind = Kind::Extension {
            register: u64::from(extension.register),
        };
        let mut work = Work::new(kind, answer);
        work.extended = words_of(&extended(&old, &extension.digest));
        work.told = vec![Value::Digest(extension.digest)];
        work
    }

    /// A tree command, if its data is exactly one of the four.
    fn call(&self, request: Request) -> Option<TreeCall> {
        let mut data = Bytes::new(request.bytes.get(INVOKE_DATA..)?);
        let command = data.next()?;
        let handle = Paper.handle(&mut data).ok()?;
        let act = self.act(command, &mut data)?;
        let call = TreeCall::new(handle, act, request.fresh, request.caller);
        self.ends(&mut data).then_some(call)
    }

    /// What follows the handle.
    fn act(&self, command: u8, data: &mut Bytes) -> Option<Act> {
        Some(match command {
            DERIVE_DATA => Act::Derive {
                retain: self.retain(data)?,
                kind: self.data_number(data)?,
                digest: Paper.digest(data).ok()?,
            },
            EXTEND_DATA => Act::Extend {
                digest: Paper.digest(data).ok()?,
            },
            ROTATE_DATA => Act::Rotate,
            DESTROY_DATA => Act::Destroy,
            _ => return None,
        })
    }

    /// 1 or 0.
    fn retain(&self, data: &mut Bytes) -> Option<u32> {
        self.data_number(data).filter(|&retain| retain <= 1)
    }

    /// A number as the journal has them.
    fn data_number(&self, data: &mut Bytes) -> Option<u32> {
        Paper.number(data).ok()
    }

    /// Whether no byte is left over.
    fn ends(&self, data: &mut Bytes) -> bool {
        data.next().is_none()
    }

    /// A tree command's grounds, the first first.
    fn call_grounds(
        &self,
        view: &View,
        request: Request,
        call: Option<&TreeCall>,
    ) -> Vec<(Ground, bool)> {
        let tree = view.tree;
        let node = call.and_then(|call| tree.named(&call.handle));
        let is = |sort: fn(Act) -> bool| call.is_some_and(|call| sort(call.act));
        let strange = node.is_some_and(|node| !self.may_call(tree, node, request.caller));
        let is_root = node.is_some_and(|node| tree.is_root(node));
        let has_child = node.is_some_and(|node| tree.has_child(node));
        vec![
            (Declined(DPE_OFF), !view.on),
            (Refused(number::TREE), !view.well_formed),
            (Declined(DPE_DATA), call.is_none()),
            (Declined(DPE_HANDLE), node.is_none()),
            (Declined(DPE_LOCALITY), strange),
            (
                Declined(DPE_FRESH),
                is(Act::takes_fresh) && !self.fresh_fine(tree, request.fresh),
            ),
            (Declined(DPE_FULL), is(Act::is_derive) && view.full),
            (Declined(DPE_ROOT), is(Act::spares_root) && is_root),
            (
                Declined(DPE_CHILDREN),
                is(|act| act == Act::Destroy) && has_child,
            ),
        ]
    }

    /// Whether a node's locality is the caller's.
    fn may_call(&self, tree: &dyn Tree, node: usize, caller: u32) -> bool {
        tree.locality(node) == caller
    }

    /// A handle of its length that is neither zero nor retired and that no node
    /// has.
    fn fresh_fine(&self, tree: &dyn Tree, fresh: &[u8]) -> bool {
        let fresh = Handle::try_from(fresh);
        fresh
            .is_ok_and(|fresh| fresh != DEFAULT && fresh != RETIRED && tree.named(&fresh).is_none())
    }

    /// An accepted tree command on the node that its handle names.
    fn call_work(&self, unit: Unit, call: &TreeCall, answer: &[u8]) -> Work {
        let node = unit.named(&call.handle).unwrap_or_default();
        let mut work = Work::new(self.call_kind(unit, node, call), answer);
        match call.act {
            Act::Derive { kind, digest, .. } => {
                work.node = self.child(node, kind, &digest, call);
            }
            Act::Extend { digest } => {
                let old = unit.bytes_at(crate::layout::node(node) + NODE_CUMULATIVE);
                work.set_node(NODE_CURRENT, &digest);
                work.set_node(NODE_CUMULATIVE, &extended(&old, &digest));
            }
            Act::Rotate => work.set_handle(&call.fresh),
            Act::Destroy => {}
        }
        work.told = self.told_of_call(call);
        work
    }

    /// The kind of a tree command's work, and the nodes that it stores to.
    fn call_kind(&self, unit: Unit, named: usize, call: &TreeCall) -> Kind {
        let node = named as u64;
        let free = unit.free_node().unwrap_or_default() as u64;
        match call.act {
            Act::Derive { retain: 0, .. } => Kind::Succeed {
                node: free,
                parent: node,
            },
            Act::Derive { .. } => Kind::Derive { node: free },
            Act::Extend { .. } => Kind::Remeasure { node },
            Act::Rotate => Kind::Rotate { node },
            Act::Destroy => Kind::Destroy(Freed::of(&unit.freed(named))),
        }
    }

    /// A derived child's words.
    fn child(
        &self,
        parent: usize,
        kind: u32,
        digest: &Digest,
        call: &TreeCall,
    ) -> [u32; NODE_WORDS] {
        let mut child = Work::new(Kind::Nothing, &[]);
        child.node[0] = (parent as u32) << 16 | USED;
        child.set_handle(&call.fresh);
        child.set_node(NODE_CURRENT, digest);
        child.set_node(NODE_CUMULATIVE, &extended(&ZERO, digest));
        child.node[TYPE] = kind;
        child.node[LOCALITY] = call.caller;
        child.node
    }

    /// What the journal tells of a tree command.
    fn told_of_call(&self, call: &TreeCall) -> Vec<Value> {
        use Value::{Digest, Number};
        let (handle, fresh) = (Value::Handle(call.handle), Value::Handle(call.fresh));
        let caller = Number(call.caller);
        match call.act {
            Act::Derive {
                retain,
                kind,
                digest,
            } => vec![
                handle,
                Number(retain),
                Number(kind),
                Digest(digest),
                fresh,
                caller,
            ],
            Act::Extend { digest } => vec![handle, Digest(digest), caller],
            Act::Rotate => vec![handle, fresh, caller],
            Act::Destroy => vec![handle, caller],
        }
    }
}
