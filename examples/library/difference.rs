//! The first mesh without the second: difference A B OUT
use std::io::Write;
use std::{env, fs, process, ptr, slice};

/// `ember_bytes` of ember.h.
#[repr(C)]
#[derive(Clone, Copy)]
struct Bytes {
    at: *const u8,
    len: usize,
}

/// `ember_file`.
#[repr(C)]
struct File {
    name: Bytes,
    bytes: Bytes,
}

/// `ember_block`.
#[repr(C)]
struct Block {
    at: *mut u8,
    len: usize,
}

/// `ember_named`.
#[repr(C)]
struct Named {
    name: Block,
    bytes: Block,
}

/// `ember_answer`.
#[repr(C)]
struct Answer {
    status: u32,
    file: u32,
    place: u64,
    out: Block,
    err: Block,
    files: *mut Named,
    n_files: usize,
}

extern "C" {
    fn ember_abi() -> u32;
    fn ember_mesh_command(words: *const Bytes, n_words: usize, files: *const File, n_files: usize, answer: *mut Answer) -> u32;
    fn free(block: *mut u8);
}

impl Bytes {
    fn of(bytes: &[u8]) -> Bytes {
        Bytes { at: bytes.as_ptr(), len: bytes.len() }
    }
}

impl Block {
    /// The bytes as a vector. The block is freed.
    fn take(&self) -> Vec<u8> {
        if self.at.is_null() {
            return Vec::new();
        }
        // The library gave `len` bytes there, which came from malloc, and nobody else has them.
        unsafe {
            let bytes = slice::from_raw_parts(self.at, self.len).to_vec();
            free(self.at);
            bytes
        }
    }
}

fn main() {
    let names: Vec<String> = env::args().skip(1).collect();
    assert_eq!(names.len(), 3, "difference A B OUT");
    assert_eq!(unsafe { ember_abi() }, 1);
    let words = ["difference", "-o", &names[2], &names[0], &names[1]].map(|word| Bytes::of(word.as_bytes()));
    let contents = [&names[0], &names[1]].map(|name| fs::read(name).expect("a file that can be read"));
    let files = [0, 1].map(|i| File { name: Bytes::of(names[i].as_bytes()), bytes: Bytes::of(&contents[i]) });
    let none = || Block { at: ptr::null_mut(), len: 0 };
    let mut answer = Answer { status: 0, file: 0, place: 0, out: none(), err: none(), files: ptr::null_mut(), n_files: 0 };
    let status = unsafe { ember_mesh_command(words.as_ptr(), words.len(), files.as_ptr(), files.len(), &mut answer) };
    std::io::stderr().write_all(&answer.err.take()).expect("a standard error that can be written");
    answer.out.take();
    for i in 0..answer.n_files {
        // The library wrote `n_files` of them there.
        let named = unsafe { &*answer.files.add(i) };
        let name = String::from_utf8(named.name.take()).expect("a name of the words");
        fs::write(name, named.bytes.take()).expect("a file that can be written");
    }
    unsafe { free(answer.files.cast()) };
    process::exit(status as i32);
}
