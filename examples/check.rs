//! Checks the demo's proof, and the same with one byte changed: prints yes, then no.
use std::path::Path;
use std::{env, fs};

#[link(name = "gawerunoa", kind = "static")]
extern "C" {
    fn gawerunoa_check_operation(
        family: u32,
        hash: u32,
        chunk_size: usize,
        location: u64,
        proof: *const u8,
        proof_length: usize,
        operation: *const u8,
        operation_length: usize,
        root: *const u8,
        root_length: usize,
    ) -> i32;
}

const MMR: u32 = 0;
const SHA256: u32 = 0;

fn told(proof: &[u8], operation: &[u8], root: &[u8]) -> &'static str {
    // Each pointer stands at as many bytes as are said, which nothing writes to meanwhile.
    let answer = unsafe {
        gawerunoa_check_operation(
            MMR, SHA256, 1, 3, proof.as_ptr(), proof.len(), operation.as_ptr(), operation.len(), root.as_ptr(), root.len(),
        )
    };
    match answer {
        1 => "yes",
        0 => "no",
        _ => "refused, or out of memory",
    }
}

fn main() -> std::io::Result<()> {
    let folder = env::args().nth(1).unwrap_or("examples/data".into());
    let contents = |name: &str| fs::read(Path::new(&folder).join(format!("{name}.bin")));
    let (root, operation, mut proof) = (contents("root")?, contents("operation")?, contents("proof")?);
    println!("{}", told(&proof, &operation, &root));
    let middle = proof.len() / 2;
    proof[middle] ^= 1;
    println!("{}", told(&proof, &operation, &root));
    Ok(())
}
