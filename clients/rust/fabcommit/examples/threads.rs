//! threads CHANNEL BLOCK..: checks the signatures of blocks on several threads, and hands these in one after the other.
use fabcommit::{Error, Ledger, Listing, Request};
use std::thread::{available_parallelism, scope};

/// Stands for your network's check, as by certificates and ECDSA. This one takes all signatures that aren't empty.
fn is_good(request: &Request) -> bool {
    !request.signature.is_empty()
}

fn checked(block: &[u8]) -> Result<Listing<'_>, Error> {
    let mut listing = Listing::of(block)?;
    listing.check(|request| is_good(&request));
    Ok(listing)
}

fn main() -> Result<(), Box<dyn std::error::Error>> {
    let mut files = std::env::args().skip(1).map(|path| std::fs::read(&path).map_err(|e| format!("{path}: {e}")));
    let mut ledger = Ledger::open(&files.next().ok_or("threads CHANNEL BLOCK..")??, b"")?;
    let blocks = files.collect::<Result<Vec<_>, _>>()?;
    // each thread of a group checks a block
    for group in blocks.chunks(available_parallelism()?.get()) {
        scope(|threads| {
            let checks: Vec<_> = group.iter().map(|block| threads.spawn(|| checked(block))).collect();
            for check in checks {
                let receipt = ledger.submit_by(&check.join().expect("a check doesn't panic")?)?;
                let hash: String = receipt.header_hash.iter().map(|byte| format!("{byte:02x}")).collect();
                let flags = ledger.flags(receipt.number)?.unwrap_or_default();
                let flags: String = flags.iter().map(|flag| format!(" {}", flag.number())).collect();
                println!("accepted {} {hash}{flags}", receipt.number);
            }
            Ok::<_, Error>(())
        })?;
    }
    Ok(())
}
