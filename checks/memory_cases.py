"""The self-test of memory.py: ends of functions that invent want of memory, and such as were met by it."""
import sys

from memory import compared, places_in

# What the self-test reads: each line of a list is the end of a function, and stands for a place or for none.
DECLARED = """
pub enum Fault { #[error("out of memory")] Memory, BadRecord { at: u64 } }
impl From<AllocError> for Fault { fn from(_: AllocError) -> Self { Fault::Memory } }
pub struct Refused { pub at: u64, pub fault: AllocError }
fn room(alloc: Global) -> Result<u64, AllocError> { Ok(Vec::<u8>::with_capacity(alloc, 1)?.len() as u64) }
fn read(alloc: Global, bytes: &[u8]) -> Result<u64, Fault> { Ok(room(alloc)?) }
fn made(alloc: Global) -> Result<u64, Refused> {
    match room(alloc) { Ok(at) => Ok(at), Err(fault) => Err(Refused { at: 0, fault }) }
}
fn stopped() -> Fault { Fault::Memory }
"""
PLANTED = [
    # a 1,025th file, a 2,049th entry, a 65th key, a withdrawal, a list without numbers, a line that is too long
    "if files.len() > 1_024 { return Err(Fault::Memory); } Ok(())",
    "if entries.len() >= MOST { return Err(AllocError); } Ok(())",
    "for key in keys { if seen == 64 { return Err(AllocError); } seen += 1; } Ok(())",
    "match change { Change::Put { .. } => Ok(()), Change::Withdraw { .. } => Err(AllocError) }",
    "if held.asn.is_empty() { Err(AllocError) } else { Ok(()) }",
    "let n = line.len().checked_sub(LIMIT).ok_or(AllocError)?; Ok(n)",
    # a bad record, a damaged header, a forged signature, a refusal, an outlet's fault
    "match read(alloc, bytes) { Ok(_) => Ok(()), Err(Fault::BadRecord { .. }) => Err(AllocError), Err(it) => Err(it) }",
    "match read(alloc, bytes) { Ok(_) => Ok(()), Err(Fault::BadRecord { .. } | Fault::Memory) => Err(AllocError) }",
    "match read(alloc, bytes) { Ok(_) => Ok(()), Err(_) => Err(AllocError) }",
    "match read(alloc, bytes) { Ok(_) => Ok(()), Err(Fault::Memory) => Err(AllocError), _ => Err(AllocError) }",
    "if head[..8] != MAGIC { return Err(Fault::Memory); } Ok(())",
    "let Ok(n) = read(alloc, bytes) else { return Err(Fault::Memory) }; Ok(n)",
    "let Some(part) = Part::whole(bytes) else { return Err(Fault::Memory) }; Ok(part)",
    "if !ring.check(alloc, key)? { return Err(Fault::Memory); } Ok(())",
    "read(alloc, bytes).map_err(|_| AllocError)",
    "read(alloc, bytes).or(Err(AllocError))",
    "if read(alloc, bytes).is_err() { return Err(AllocError); } Ok(())",
    "if room(alloc).is_err() || now > 0 { return Err(AllocError); } Ok(())",
    "if !room(alloc).is_err() { return Err(AllocError); } Ok(())",
    "if let Err(_) = read(alloc, bytes) { return Err(AllocError); } Ok(())",
    "if room(alloc).is_err() { Ok(()) } else { Err(AllocError) }",
    "let Ok(0) = room(alloc) else { return Err(AllocError) }; Ok(())",
    "if let Ok(1) = room(alloc) { Ok(()) } else { Err(AllocError) }",
    "Err(Refused { at: 0, fault: AllocError })",
    "let fault = AllocError; Err(fault)",
    "match verdict { Ok(()) => append(out, &Refused::Memory), Err(_) => Ok(()) }",
    "const WANTING: AllocError = AllocError; Err(WANTING)",
    "Err(stopped())",
    "use std::alloc::AllocError as Failed; Err(Failed)",
]
HONEST = [
    "let n = room(alloc)?; Ok::<u64, AllocError>(n)",
    "match room(alloc) { Ok(_) => Ok(()), Err(_) => Err(Fault::Memory) }",
    "match room(alloc) { Ok(_) => Ok(()), Err(AllocError) => Err(Fault::Memory) }",
    "match read(alloc, bytes) { Ok(_) => Ok(()), Err(Fault::Memory) => Err(AllocError), Err(it) => Err(other(it)) }",
    "match made(alloc) { Ok(_) => Ok(()), Err(Refused { at, .. }) => Err(AllocError) }",
    "match (one, other) { (Fault::Memory, _) | (_, Fault::Memory) => Fault::Memory, _ => one }",
    "let Ok(n) = room(alloc) else { return Err(Fault::Memory) }; Ok(n)",
    "let Ok(all) = vec![in alloc; n] else { return Err(Fault::Memory) }; Ok(all)",
    "if let Err(_) = room(alloc) { return Err(Fault::Memory); } Ok(())",
    "if room(alloc).is_err() { return Err(stopped()); } Ok(())",
    "let mut out = Vec::new(alloc); if out.push(1).is_err() { return Err(Fault::Memory); } Ok(())",
    "room(alloc).map_err(|_| Fault::Memory)",
    "read(alloc, bytes).map_err(|_: AllocError| Fault::Memory)",
    "match error { it if it.is_memory() => Err(Fault::Memory), it => Err(other(it)) }",
    "if error.kind() == ErrorKind::OutOfMemory { Fault::Memory } else { Fault::BadRecord { at: 0 } }",
    "let wanting = fault == Fault::Memory; // AllocError\n Ok(wanting)",
    "ghost use Fault.{Memory}; ghost then = { Memory }; Ok(())",
]


def selftest():
    faults, lines = [], [("stopped()", "Fault::Memory", "declared.rt", "it is handed on")]
    for texts, is_planted in (PLANTED, True), (HONEST, False):
        for text in texts:
            code = DECLARED + "fn tried(alloc: Global, bytes: &[u8]) -> Result<(), Fault>\n"
            code += "    ensures { IfErr result (λ e. e ≡ Memory) }\n{ " + text + " }\n"
            left, gone, _ = compared(places_in({"declared.rt": code}, lines), lines)
            if gone or bool(left) != is_planted:
                faults.append(f"{'passed over' if is_planted else 'found'}: {text} {[it.text for it in left]}{gone}")
    for fault in faults:
        print(f"memory: {fault}", file=sys.stderr)
    print(f"checks/memory: self-test {'FAILED' if faults else 'ok'}, {len(PLANTED)} planted, {len(HONEST)} honest")
    return 1 if faults else 0
