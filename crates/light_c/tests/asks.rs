//! Asks over a struct of what is agreed, from Rust: a right proof and the same with one byte changed, and each refusal of the struct.
//! Prints an answer a line.
//!
//!     asks FOLDER     FOLDER has the files root.bin, operation.bin and proof.bin: of location 3, MMR, SHA-256 and chunks of a byte

#[repr(C)]
#[derive(Clone, Copy, Default)]
struct Agreed {
    family: u32,
    hash: u32,
    keys: u32,
    values: u32,
    chunk_size: usize,
    min_key_length: usize,
    max_key_length: usize,
    min_value_length: usize,
    max_value_length: usize,
    max_digests: usize,
}

#[link(name = "gawerunoa", kind = "static")]
extern "C" {
    fn gawerunoa_version() -> u32;
    fn gawerunoa_ask_operation(
        agreed: *const Agreed, agreed_count: usize, location: u64,
        proof: *const u8, proof_length: usize, operation: *const u8, operation_length: usize,
        root: *const u8, root_length: usize,
    ) -> i32;
}

fn main() {
    let folder = std::env::args().nth(1).expect("asks FOLDER");
    let contents = |name: &str| std::fs::read(format!("{folder}/{name}.bin")).expect(name);
    let (root, operation, proof) = (contents("root"), contents("operation"), contents("proof"));
    let ask = |agreed: &[Agreed], proof: &[u8]| {
        // SAFETY: each pointer and length is a slice's, which nothing writes to
        let answer = unsafe {
            gawerunoa_ask_operation(
                agreed.as_ptr(), agreed.len(), 3, proof.as_ptr(), proof.len(), operation.as_ptr(), operation.len(),
                root.as_ptr(), root.len(),
            )
        };
        println!("{answer}");
    };
    let agreed = Agreed { chunk_size: 1, ..Agreed::default() };
    let mut changed = proof.clone();
    changed[proof.len() / 2] ^= 1;
    ask(&[agreed], &proof);
    ask(&[agreed], &changed);
    ask(&[], &proof);
    ask(&[agreed, agreed], &proof);
    ask(&[Agreed { keys: 2, ..agreed }], &proof);
    ask(&[Agreed { values: 3, ..agreed }], &proof);
    ask(&[Agreed { keys: 1, values: 2, ..agreed }], &proof);
    ask(&[Agreed { family: 2, ..agreed }], &proof);
    ask(&[Agreed { hash: 2, ..agreed }], &proof);
    // SAFETY: it takes nothing
    println!("{}", unsafe { gawerunoa_version() });
}
