//! The event program: standard input to standard output.

use std::fs::File;
use std::io;
use std::os::fd::AsFd;

fn main() -> io::Result<()> {
    let input = File::from(io::stdin().as_fd().try_clone_to_owned()?);
    let output = File::from(io::stdout().as_fd().try_clone_to_owned()?);
    twin::serve(input, output)
}
