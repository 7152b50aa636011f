//! Reads a list of calls on standard input and prints its answer, as `runlist` does.
//! On a refusal it prints the signed number alone and CRLF.

use std::io::{self, Read, Write};

fn main() -> io::Result<()> {
    let mut file = Vec::new();
    // One byte more than a file may have shows that it is too long.
    io::stdin().lock().take(peer::lists::LONGEST_FILE as u64 + 1).read_to_end(&mut file)?;
    let mut answer = vec![0; 65_536];
    let result = peer::lists::run_list(&file, &mut answer);
    let mut out = io::stdout().lock();
    match usize::try_from(result) {
        Ok(written) => out.write_all(&answer[..written])?,
        Err(_) => write!(out, "{result}\r\n")?,
    }
    out.flush()
}
