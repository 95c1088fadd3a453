//! One copy of 32 KiB a call into memory that is kept: what the calls of `sshc_bench channels` can't go below.
//!
//! Word: CALLS. Build it by `rustc --edition 2021 -O bench/copy.rs`.

use std::hint::black_box;

fn main() {
    let calls: u64 = std::env::args().nth(1).and_then(|word| word.parse().ok()).unwrap_or(10);
    let body = vec![0x5a_u8; 32_768];
    let mut bytes = 0;
    let mut packet = Vec::with_capacity(9 + body.len());
    for _ in 0..calls {
        packet.clear();
        packet.extend_from_slice(&[0x5e, 0, 0, 0, 1, 0, 0, 0x80, 0]);
        packet.extend_from_slice(black_box(&body));
        bytes += black_box(&packet).len() as u64;
    }
    println!("{calls} calls: {bytes} bytes");
}
