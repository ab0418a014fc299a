//! Images and journals made by hand, from the papers alone: digests are the machine's `sha384sum`, words are
//! set one by one.

#![allow(dead_code)]

use std::fs;
use std::io::Write;
use std::path::PathBuf;
use std::process::{Command, Stdio};

pub type Digest = [u8; 48];

/// SHA-384 by the machine's own program.
pub fn sha384(message: &[u8]) -> Digest {
    let mut child = Command::new("sha384sum")
        .stdin(Stdio::piped())
        .stdout(Stdio::piped())
        .spawn()
        .expect("sha384sum runs");
    let mut input = child.stdin.take().expect("a pipe");
    input.write_all(message).expect("it reads");
    drop(input);
    let output = child.wait_with_output().expect("it ends").stdout;
    let digits = String::from_utf8(output).expect("text");
    std::array::from_fn(|i| u8::from_str_radix(&digits[2 * i..2 * i + 2], 16).expect("hex"))
}

pub fn extended(x: &Digest, d: &Digest) -> Digest {
    sha384(&[&x[..], d].concat())
}

const ZERO: Digest = [0; 48];

/// A number in groups of seven bits.
pub fn number(mut value: u32) -> Vec<u8> {
    let mut bytes = Vec::new();
    while value > 0x7F {
        bytes.push(value as u8 & 0x7F | 0x80);
        value >>= 7;
    }
    bytes.push(value as u8);
    bytes
}

/// A unit with the journal that it keeps.
#[derive(Clone)]
pub struct Unit {
    pub image: Vec<u32>,
    pub journal: Vec<u8>,
    used: usize,
}

impl Default for Unit {
    fn default() -> Self {
        Self::new()
    }
}

impl Unit {
    pub fn new() -> Self {
        Self {
            image: vec![0; 1520],
            journal: Vec::new(),
            used: 0,
        }
    }

    fn put(&mut self, at: usize, digest: &Digest) {
        for (i, four) in digest.chunks_exact(4).enumerate() {
            self.image[at + i] = u32::from_le_bytes(four.try_into().expect("four bytes"));
        }
    }

    fn get(&self, at: usize) -> Digest {
        let bytes: Vec<u8> = self.image[at..at + 12]
            .iter()
            .flat_map(|word| word.to_le_bytes())
            .collect();
        bytes.try_into().expect("48 bytes")
    }

    pub fn cold_boot(mut self, runtime: u8, manifest: u8) -> Self {
        let (runtime, manifest) = ([runtime; 48], [manifest; 48]);
        self.journal.push(1);
        self.journal.extend(runtime);
        self.journal.extend(manifest);
        let value = extended(&extended(&ZERO, &runtime), &manifest);
        self.image = vec![0; 1520];
        self.image[0] = 1;
        self.image[1] = 1;
        self.put(16 + 12 * 2, &value);
        self.put(16 + 12 * 3, &value);
        self.image[400] = 0x00FF_0001;
        self.image[407] = 0x8000_0000;
        self.put(408, &value);
        self.put(420, &extended(&ZERO, &value));
        self.image[432] = 0x4D4A_5452;
        self.used = 1;
        self
    }

    pub fn update(mut self, runtime: u8, manifest: u8) -> Self {
        let (runtime, manifest) = ([runtime; 48], [manifest; 48]);
        self.journal.push(2);
        self.journal.extend(runtime);
        self.journal.extend(manifest);
        let journey = extended(&extended(&self.get(52), &runtime), &manifest);
        let cumulative = extended(&self.get(420), &journey);
        self.put(40, &extended(&extended(&ZERO, &runtime), &manifest));
        self.put(52, &journey);
        self.put(408, &journey);
        self.put(420, &cumulative);
        self
    }

    pub fn stash(self, kind: &[u8; 4], digest: u8, svn: u32, caller: u32) -> Self {
        let place = self.used;
        self.stash_at(place - 1, place, (kind, digest, svn, caller))
    }

    /// A stash that takes this node below that holder of the default handle.
    pub fn stash_at(
        mut self,
        holder: usize,
        place: usize,
        (kind, digest, svn, caller): (&[u8; 4], u8, u32, u32),
    ) -> Self {
        assert_eq!(self.handle_of(holder), [0; 20]);
        let (kind, digest) = (u32::from_le_bytes(*kind), [digest; 48]);
        self.journal.push(4);
        self.journal.extend(number(kind));
        self.journal.extend(digest);
        self.journal.extend(number(svn));
        self.journal.extend(number(caller));
        let pcr31 = extended(&self.get(388), &digest);
        self.put(388, &pcr31);
        self.put_handle(holder, [0xFF; 20]);
        self.put_node(place, holder, kind, &digest, caller);
        self.image[400 + 35 * place + 34] = svn;
        self.used += 1;
        self
    }

    // ---- tree commands: the test says which nodes they are about

    pub fn handle_of(&self, place: usize) -> [u8; 20] {
        let at = 400 + 35 * place + 2;
        let words = self.image[at..at + 5].iter();
        let bytes: Vec<u8> = words.flat_map(|word| word.to_le_bytes()).collect();
        bytes.try_into().expect("20 bytes")
    }

    pub fn put_handle(&mut self, place: usize, handle: [u8; 20]) {
        for (i, four) in handle.chunks_exact(4).enumerate() {
            let word = u32::from_le_bytes(four.try_into().expect("four bytes"));
            self.image[400 + 35 * place + 2 + i] = word;
        }
    }

    fn locality(&self, place: usize) -> u32 {
        self.image[400 + 35 * place + 33]
    }

    /// A node as stash and derive make it, with the default handle.
    fn put_node(&mut self, place: usize, above: usize, kind: u32, digest: &Digest, caller: u32) {
        let at = 400 + 35 * place;
        assert_eq!(self.image[at..at + 35], [0; 35], "node {place} is free");
        self.image[at] = (above as u32) << 16 | 1;
        self.put(at + 8, digest);
        self.put(at + 20, &extended(&ZERO, digest));
        self.image[at + 32] = kind;
        self.image[at + 33] = caller;
    }

    /// The caller is the locality of the node above.
    pub fn derive(
        mut self,
        (above, retain): (usize, u8),
        place: usize,
        (kind, digest, fresh): (&[u8; 4], u8, u8),
    ) -> Self {
        let (kind, digest, caller) = (
            u32::from_le_bytes(*kind),
            [digest; 48],
            self.locality(above),
        );
        self.journal.push(6);
        self.journal.extend(self.handle_of(above));
        self.journal.push(retain);
        self.journal.extend(number(kind));
        self.journal.extend(digest);
        self.journal.extend([fresh; 20]);
        self.journal.extend(number(caller));
        self.put_node(place, above, kind, &digest, caller);
        self.put_handle(place, [fresh; 20]);
        if retain == 0 {
            self.put_handle(above, [0xFF; 20]);
        }
        self
    }

    pub fn extend(mut self, place: usize, digest: u8) -> Self {
        self.journal.push(7);
        self.journal.extend(self.handle_of(place));
        self.journal.extend([digest; 48]);
        self.journal.extend(number(self.locality(place)));
        let at = 400 + 35 * place;
        self.put(at + 20, &extended(&self.get(at + 20), &[digest; 48]));
        self.put(at + 8, &[digest; 48]);
        self
    }

    pub fn rotate(mut self, place: usize, fresh: u8) -> Self {
        self.journal.push(8);
        self.journal.extend(self.handle_of(place));
        self.journal.extend([fresh; 20]);
        self.journal.extend(number(self.locality(place)));
        self.put_handle(place, [fresh; 20]);
        self
    }

    /// Destroys the first of these nodes; the others go with it.
    pub fn destroy(mut self, freed: &[usize]) -> Self {
        self.journal.push(9);
        self.journal.extend(self.handle_of(freed[0]));
        self.journal.extend(number(self.locality(freed[0])));
        for place in freed {
            let at = 400 + 35 * place;
            self.image[at..at + 35].fill(0);
        }
        self
    }

    pub fn extension(mut self, register: u32, digest: u8) -> Self {
        self.journal.push(5);
        self.journal.extend(number(register));
        self.journal.extend([digest; 48]);
        let at = 16 + 12 * register as usize;
        let value = extended(&self.get(at), &[digest; 48]);
        self.put(at, &value);
        self
    }

    pub fn disabling(mut self) -> Self {
        self.journal.push(3);
        self.image[1] = 0;
        self.image[4..16].fill(0);
        self
    }

    pub fn image_bytes(&self) -> Vec<u8> {
        self.image.iter().flat_map(|w| w.to_le_bytes()).collect()
    }

    /// PCR2 to PCR31, as `replay` writes them.
    pub fn registers(&self) -> Vec<u8> {
        self.image[40..400]
            .iter()
            .flat_map(|w| w.to_le_bytes())
            .collect()
    }
}

/// Two programs, an extension and an update.
pub fn some_unit() -> Unit {
    Unit::new()
        .cold_boot(0x11, 0x33)
        .stash(b"HOUR", 0x66, 3, 1)
        .stash(b"\0\x01\x02\x03", 0x77, 300, u32::MAX)
        .extension(4, 0x88)
        .update(0x44, 0x55)
}

/// A tree of five nodes: 1 and 2 below the root, which is retired, 3 below 1, a stash's node 4 below the root. Each of
/// the four commands had its part.
pub fn some_tree() -> Unit {
    Unit::new()
        .cold_boot(0x11, 0x33)
        .derive((0, 1), 1, (b"ENGI", 0x21, 0xA1))
        .derive((0, 1), 2, (b"DOOR", 0x22, 0xA2))
        .derive((1, 1), 3, (b"PUMP", 0x23, 0xA3))
        .derive((2, 0), 4, (b"LOCK", 0x24, 0xA4))
        .extend(3, 0x43)
        .rotate(1, 0xB1)
        .destroy(&[4, 2])
        .derive((0, 1), 2, (b"DOOR", 0x25, 0xA5))
        .stash_at(0, 4, (b"HOUR", 0x66, 3, 300))
}

/// A temporary folder that goes when the value does.
pub struct Folder(pub PathBuf);

impl Folder {
    pub fn new(label: &str) -> Self {
        let name = format!("waggleloft-inspector-{label}-{}", std::process::id());
        let path = std::env::temp_dir().join(name);
        fs::create_dir(&path).expect("a new temporary folder");
        Self(path)
    }

    pub fn file(&self, name: &str, bytes: &[u8]) -> PathBuf {
        let path = self.0.join(name);
        fs::write(&path, bytes).expect("the temporary folder is writable");
        path
    }

    pub fn names(&self) -> Vec<String> {
        let files = fs::read_dir(&self.0).expect("a folder");
        let mut names: Vec<String> = files
            .map(|file| {
                file.expect("a file")
                    .file_name()
                    .into_string()
                    .expect("a name")
            })
            .collect();
        names.sort();
        names
    }
}

impl Drop for Folder {
    fn drop(&mut self) {
        // What is left behind in the temporary folder harms no test.
        let _ = fs::remove_dir_all(&self.0);
    }
}

/// Tags that are opened are closed in their order, and nothing is asked of another file or place.
#[track_caller]
pub fn check_page(page: &str) {
    let rest = page.strip_prefix("<!DOCTYPE html>").expect("a doctype");
    let mut open: Vec<&str> = Vec::new();
    for part in rest.split('<').skip(1) {
        let (tag, text) = part.split_once('>').expect("a tag ends");
        assert!(!text.contains('>'), "{text}");
        assert_eq!(tag.matches('"').count() % 2, 0, "quotes of <{tag}>");
        let name = tag.split(|c: char| !c.is_ascii_alphanumeric()).next();
        match tag.strip_prefix('/') {
            Some(name) => assert_eq!(open.pop(), Some(name)),
            None if tag.ends_with('/') => {}
            None => open.push(name.expect("a name")),
        }
        if open.last() != Some(&"style") {
            let entities = text.split('&').skip(1);
            for entity in entities {
                assert!(entity.contains(';'), "&{entity}");
            }
        }
    }
    assert!(open.is_empty(), "{open:?} are left open");
    for foreign in [
        "http:", "https:", "src=", "href", "url(", "@import", "<script", "<link",
    ] {
        assert!(!page.contains(foreign), "{foreign}");
    }
}
