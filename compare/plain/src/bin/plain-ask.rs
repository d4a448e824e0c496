//! The server of calls over `plain`: requests on standard input, replies on standard output.

#![forbid(unsafe_code)]

use std::io;

fn main() -> io::Result<()> {
    plain::ask::serve(io::stdin().lock(), io::stdout().lock())
}
