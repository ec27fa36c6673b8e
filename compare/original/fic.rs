//! The program `fic` over the Rust original: three symbols at a time from standard input, the FIBs
//! that it draws from them to standard output; an incomplete end is not decoded.

use dabradio::fic::handler::process_fic;
use std::io::{Read, Write};

fn main() {
    let (mut input, mut output) = (std::io::stdin().lock(), std::io::stdout().lock());
    let mut frame = [0; 3 * 3_072];
    while input.read_exact(&mut frame).is_ok() {
        let symbols: Vec<Vec<i8>> = frame.chunks(3_072).map(|s| s.iter().map(|&byte| byte as i8).collect()).collect();
        if process_fic(&symbols).iter().any(|fib| output.write_all(fib).is_err()) {
            return;
        }
    }
}
