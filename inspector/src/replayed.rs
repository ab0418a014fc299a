//! The journal replayed for display: what each entry makes of registers and nodes.
//!
//! The program `replay` judges; this is here to show which nodes differ, and why an entry was refused.

use crate::form::{Entry, Field};
use crate::image::{Digest, Handle, Image, Node, Parent, NODES, ROOT_FLAGS, ROOT_TYPE};
use crate::sha384::extended;
use crate::words::{handle_words, places_words};

const ZERO: Digest = [0; 48];

/// Registers and nodes after some entries.
#[derive(Clone)]
pub struct Replayed {
    image: Image,
    booted: bool,
    on: bool,
}

/// The nodes that an entry was about.
#[derive(Clone, Debug, Default, PartialEq, Eq)]
pub struct Places {
    /// The one that its handle names; of a stash, the holder of the default handle.
    pub named: Option<usize>,
    /// The one that it took.
    pub taken: Option<usize>,
    /// Those that it freed, upwards.
    pub freed: Vec<usize>,
}

/// Why the unit could not have counted an entry there (number 24).
#[derive(Clone, Debug, PartialEq, Eq)]
pub enum Impossible {
    BeforeColdBoot,
    AfterDisabling,
    NoFreeNode,
    NoHolder,
    Register(u32),
    Retain(u32),
    /// The handle names no node.
    Nameless(Handle),
    /// It names a node of another caller.
    Foreign {
        place: usize,
        locality: u32,
        caller: u32,
    },
    /// The fresh handle means something else.
    NotFresh(Handle),
    /// A node has the fresh handle already.
    InUse(usize),
    /// The root can be neither extended nor destroyed.
    Root(usize),
    /// A node with others below it cannot be destroyed.
    Children(usize, Vec<usize>),
}

impl Impossible {
    pub fn words(&self) -> String {
        match self {
            Self::BeforeColdBoot => "nothing is counted before the first cold boot".into(),
            Self::AfterDisabling => {
                "attestation is off: there was a disabling, and no cold boot since".into()
            }
            Self::NoFreeNode => format!("all {NODES} nodes are in use: none is free for it"),
            Self::NoHolder => "no node has the default handle, so there is none to hang on".into(),
            Self::Register(number) => {
                format!("register {number} is none of PCR4 to PCR30, which may be extended")
            }
            Self::Retain(number) => format!("its retain is {number} and not 0 or 1"),
            Self::Nameless(Handle::Retired) => "a retired handle names no node".into(),
            Self::Nameless(Handle::Default) => "no node has the default handle".into(),
            Self::Nameless(handle) => format!("no node has the handle {}", handle_words(*handle)),
            Self::Foreign {
                place,
                locality,
                caller,
            } => format!("node {place} has locality {locality}: caller {caller} may not use it"),
            Self::NotFresh(handle) => {
                let handle = handle_words(*handle);
                format!("its fresh handle is the {handle} one, which no node is given")
            }
            Self::InUse(place) => format!("its fresh handle is in use: node {place} has it"),
            Self::Root(place) => format!(
                "node {place} is the root, which can be neither extended by a command nor destroyed"
            ),
            Self::Children(place, children) => {
                format!("node {place} has children: {}", places_words(children))
            }
        }
    }

    /// The field that is at fault; none if it is the kind of entry.
    pub fn field(&self) -> Option<Field> {
        match self {
            Self::BeforeColdBoot | Self::AfterDisabling | Self::NoFreeNode | Self::NoHolder => None,
            Self::Register(_) => Some(Field::Register),
            Self::Retain(_) => Some(Field::Retain),
            Self::Nameless(_) | Self::Root(_) | Self::Children(..) => Some(Field::Handle),
            Self::Foreign { .. } => Some(Field::Caller),
            Self::NotFresh(_) | Self::InUse(_) => Some(Field::Fresh),
        }
    }
}

impl Default for Replayed {
    fn default() -> Self {
        Self::new()
    }
}

impl Replayed {
    /// No entry yet.
    pub fn new() -> Self {
        Self {
            image: Image::zero(),
            booted: false,
            on: false,
        }
    }

    pub fn image(&self) -> &Image {
        &self.image
    }

    pub fn is_booted(&self) -> bool {
        self.booted
    }

    pub fn is_on(&self) -> bool {
        self.on
    }

    /// Counts an entry; the nodes that it was about.
    pub fn count(&mut self, entry: &Entry) -> Result<Places, Impossible> {
        self.allows(entry)?;
        match entry {
            Entry::ColdBoot { runtime, manifest } => self.boot_cold(runtime, manifest),
            Entry::Update { runtime, manifest } => self.update(runtime, manifest),
            Entry::Disabling => self.on = false,
            Entry::Extension { register, digest } => {
                self.extend_register(*register as usize, digest);
            }
            Entry::Stash {
                kind,
                digest,
                svn,
                caller,
            } => return self.stash(*kind, digest, *svn, *caller),
            _ => return self.command(entry),
        }
        Ok(Places::default())
    }

    /// A tree command.
    fn command(&mut self, entry: &Entry) -> Result<Places, Impossible> {
        match entry {
            Entry::Derive {
                handle,
                retain,
                kind,
                digest,
                fresh,
                caller,
            } => {
                let above = self.named(*handle, *caller)?;
                let child = child(above, *fresh, *kind, digest, *caller, 0);
                self.derive(above, *retain == 1, &child)
            }
            Entry::Extend {
                handle,
                digest,
                caller,
            } => self.extend(self.named(*handle, *caller)?, digest),
            Entry::Rotate {
                handle,
                fresh,
                caller,
            } => self.rotate(self.named(*handle, *caller)?, *fresh),
            Entry::Destroy { handle, caller } => self.destroy(self.named(*handle, *caller)?),
            _ => Ok(Places::default()),
        }
    }

    /// What can be told without a look at the nodes.
    fn allows(&self, entry: &Entry) -> Result<(), Impossible> {
        match entry {
            Entry::ColdBoot { .. } => Ok(()),
            _ if !self.booted => Err(Impossible::BeforeColdBoot),
            Entry::Disabling => Ok(()),
            Entry::Extension { register, .. } if !(4..=30).contains(register) => {
                Err(Impossible::Register(*register))
            }
            _ if !self.on => Err(Impossible::AfterDisabling),
            Entry::Derive { retain, .. } if *retain > 1 => Err(Impossible::Retain(*retain)),
            _ => Ok(()),
        }
    }

    fn boot_cold(&mut self, runtime: &Digest, manifest: &Digest) {
        let value = extended(&extended(&ZERO, runtime), manifest);
        let mut root = Node::used(Parent::Root);
        root.set_flags(ROOT_FLAGS);
        root.set_measurements(&value, &extended(&ZERO, &value));
        root.set_labels(ROOT_TYPE, 0, 0);
        self.image = Image::zero();
        self.image.set_register(2, &value);
        self.image.set_register(3, &value);
        self.image.set_node(0, &root);
        self.booted = true;
        self.on = true;
    }

    /// The root stays node 0: nothing moves it.
    fn update(&mut self, runtime: &Digest, manifest: &Digest) {
        let current = extended(&extended(&ZERO, runtime), manifest);
        let journey = extended(&extended(&self.image.register(3), runtime), manifest);
        let mut root = self.image.node(0);
        let cumulative = extended(&root.cumulative(), &journey);
        root.set_measurements(&journey, &cumulative);
        self.image.set_register(2, &current);
        self.image.set_register(3, &journey);
        self.image.set_node(0, &root);
    }

    fn extend_register(&mut self, register: usize, digest: &Digest) {
        let value = extended(&self.image.register(register), digest);
        self.image.set_register(register, &value);
    }

    fn stash(
        &mut self,
        kind: u32,
        digest: &Digest,
        svn: u32,
        caller: u32,
    ) -> Result<Places, Impossible> {
        let holder = self.holder(Handle::Default).ok_or(Impossible::NoHolder)?;
        let child = child(holder, Handle::Default, kind, digest, caller, svn);
        let places = self.put_child(holder, false, &child)?;
        self.extend_register(31, digest);
        Ok(places)
    }

    // ---- the tree commands

    fn derive(&mut self, above: usize, keep: bool, child: &Node) -> Result<Places, Impossible> {
        self.can_be_given(child.handle())?;
        self.put_child(above, keep, child)
    }

    fn extend(&mut self, place: usize, digest: &Digest) -> Result<Places, Impossible> {
        self.is_below_root(place)?;
        let mut node = self.image.node(place);
        node.set_measurements(digest, &extended(&node.cumulative(), digest));
        self.image.set_node(place, &node);
        Ok(about(place))
    }

    fn rotate(&mut self, place: usize, fresh: Handle) -> Result<Places, Impossible> {
        self.can_be_given(fresh)?;
        self.give(place, fresh);
        Ok(about(place))
    }

    /// Frees a node, and upwards each retired one that has nothing left below it, up to the root.
    fn destroy(&mut self, place: usize) -> Result<Places, Impossible> {
        self.is_below_root(place)?;
        let children = self.children(place);
        if !children.is_empty() {
            return Err(Impossible::Children(place, children));
        }
        let mut places = about(place);
        let mut next = Some(place);
        while let Some(place) = next {
            let above = self.image.node(place).parent();
            self.image.set_node(place, &Node::FREE);
            places.freed.push(place);
            next = match above {
                Parent::Node(above) if self.goes_too(above) => Some(above),
                _ => None,
            };
        }
        Ok(places)
    }

    fn goes_too(&self, place: usize) -> bool {
        let node = self.image.node(place);
        node.parent() != Parent::Root && !node.handle().is_live() && self.children(place).is_empty()
    }

    /// Puts a child below a node, which keeps its handle or is retired.
    fn put_child(&mut self, above: usize, keep: bool, child: &Node) -> Result<Places, Impossible> {
        let place = self.first(Node::is_free).ok_or(Impossible::NoFreeNode)?;
        if !keep {
            self.give(above, Handle::Retired);
        }
        self.image.set_node(place, child);
        Ok(Places {
            taken: Some(place),
            ..about(above)
        })
    }

    fn give(&mut self, place: usize, handle: Handle) {
        let mut node = self.image.node(place);
        node.set_handle(handle);
        self.image.set_node(place, &node);
    }

    // ---- looking at the nodes

    /// The node that a handle names, if this caller may use it.
    fn named(&self, handle: Handle, caller: u32) -> Result<usize, Impossible> {
        let place = self.holder(handle).ok_or(Impossible::Nameless(handle))?;
        match self.image.node(place).locality() {
            locality if locality == caller => Ok(place),
            locality => Err(Impossible::Foreign {
                place,
                locality,
                caller,
            }),
        }
    }

    /// The used node that has a live handle.
    fn holder(&self, handle: Handle) -> Option<usize> {
        match handle.is_live() {
            true => self.first(|node| node.is_used() && node.handle() == handle),
            false => None,
        }
    }

    /// Whether a handle may go to a node: it has no other meaning, and none has it.
    fn can_be_given(&self, fresh: Handle) -> Result<(), Impossible> {
        match fresh {
            Handle::Default | Handle::Retired => Err(Impossible::NotFresh(fresh)),
            Handle::Other(_) => match self.holder(fresh) {
                Some(place) => Err(Impossible::InUse(place)),
                None => Ok(()),
            },
        }
    }

    fn is_below_root(&self, place: usize) -> Result<(), Impossible> {
        match self.image.node(place).parent() {
            Parent::Root => Err(Impossible::Root(place)),
            _ => Ok(()),
        }
    }

    fn children(&self, place: usize) -> Vec<usize> {
        let nodes = self.image.nodes();
        let below =
            nodes.filter(|(_, node)| node.is_used() && node.parent() == Parent::Node(place));
        below.map(|(place, _)| place).collect()
    }

    fn first(&self, is_it: impl Fn(&Node) -> bool) -> Option<usize> {
        self.image
            .nodes()
            .find(|(_, node)| is_it(node))
            .map(|(place, _)| place)
    }
}

/// The places of an entry that is about this node.
fn about(place: usize) -> Places {
    Places {
        named: Some(place),
        ..Places::default()
    }
}

/// A node that is measured for the first time.
fn child(above: usize, handle: Handle, kind: u32, digest: &Digest, caller: u32, svn: u32) -> Node {
    let mut node = Node::used(Parent::Node(above));
    node.set_handle(handle);
    node.set_measurements(digest, &extended(&ZERO, digest));
    node.set_labels(kind, caller, svn);
    node
}
