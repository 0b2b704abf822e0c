//! Cases in print.

use cases::World;

/// Bytes as two hexadecimal digits each.
pub fn hex(bytes: &[u8]) -> String {
    let digits: Vec<String> = bytes.iter().map(|byte| format!("{byte:02X}")).collect();
    digits.join(" ")
}

/// Prints a world: registers, windows, run and requests.
pub fn print_world(world: &World) {
    let r = &world.registers;
    println!("{r:?}");
    let (root, table) = (r.root, r.interrupt_table);
    println!("root {root:X}h, interrupt table {table:X}h");
    for window in &world.windows {
        println!("{window:X?}");
    }
    println!("a run of {} bytes, zero but for", world.image.len());
    for (bytes, address) in world.image.chunks(8).zip((0..).step_by(8)) {
        if bytes.iter().any(|&byte| byte != 0) {
            let mut word = [0; 8];
            word[..bytes.len()].copy_from_slice(bytes);
            println!("  {address:X}={:X}", u64::from_le_bytes(word));
        }
    }
    for (n, request) in world.requests.iter().enumerate() {
        println!("request {n}: {request:X?}");
    }
    for descriptor in &world.takes {
        println!("take from {descriptor:X}h");
    }
}
