//! run CHANNEL KEYS BLOCK..: prints the lines of `fabcommit run`, the signatures checked by the library.
use fabcommit::{Error, Flag, Ledger, Receipt};
use std::process::ExitCode;

fn refused(place: usize, error: &Error) -> String {
    match error {
        Error::Malformed { fault } => format!("refused {place} C1 B{}", fault.unwrap_or(0)),
        Error::WrongNumber { wanted, got } => format!("refused {place} C2 want {wanted} got {got}"),
        // the command line has one more code before it
        Error::OldVersion => format!("refused {place} C8"),
        error => format!("refused {place} C{}", error.code()),
    }
}

fn accepted(receipt: &Receipt, flags: &[Flag]) -> String {
    let hash: String = receipt.header_hash.iter().map(|byte| format!("{byte:02x}")).collect();
    let flags: String = flags.iter().map(|flag| format!(" {}", flag.number())).collect();
    format!("accepted {} {hash}{flags}", receipt.number)
}

fn read(path: &String) -> Result<Vec<u8>, String> {
    std::fs::read(path).map_err(|e| format!("{path}: {e}"))
}

fn run(words: &[String]) -> Result<u8, String> {
    let [channel, keys, blocks @ ..] = words else { return Err("run CHANNEL KEYS BLOCK..".into()) };
    let mut ledger = Ledger::open(&read(channel)?, &read(keys)?).map_err(|e| e.to_string())?;
    let mut status = 0;
    for (i, path) in blocks.iter().enumerate() {
        match ledger.submit(&read(path)?) {
            Ok(receipt) => {
                let flags = ledger.flags(receipt.number).map_err(|e| e.to_string())?;
                println!("{}", accepted(&receipt, &flags.unwrap_or_default()));
            }
            Err(Error::OutOfMemory) => return Ok(4),
            Err(error) => {
                println!("{}", refused(i + 1, &error));
                status = 1;
            }
        }
    }
    Ok(status)
}

fn main() -> ExitCode {
    let words: Vec<String> = std::env::args().skip(1).collect();
    ExitCode::from(run(&words).unwrap_or_else(|fault| {
        eprintln!("run: {fault}");
        2
    }))
}
