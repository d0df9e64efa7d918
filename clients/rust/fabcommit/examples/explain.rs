//! explain CHANNEL KEYS BLOCK..: prints the lines of `fabcommit explain`, the signatures checked by the library.
use fabcommit::{Cause, Flag, Identity, Lack, Ledger, Range, Receipt, Role, TextFault, Version};
use std::error::Error;

/// Printable bytes for themselves, others as %XX.
fn word(octets: &[u8]) -> String {
    if octets.is_empty() {
        return "%".into();
    }
    let spelled = |&octet: &u8| match octet {
        b'%' => "%25".into(),
        33..=126 => char::from(octet).to_string(),
        _ => format!("%{octet:02X}"),
    };
    octets.iter().map(spelled).collect()
}

fn who(identity: &Identity) -> String {
    format!("{}:{}:{}", word(&identity.org), identity.role.name(), word(&identity.label))
}

fn flag(flag: Flag) -> String {
    format!("{} {}", flag.number(), flag.name())
}

fn version(seen: &Option<Version>) -> String {
    seen.map_or("absent".into(), |seen| format!("{} {}", seen.block, seen.tx))
}

fn versions(read: &Option<Version>, there: &Option<Version>) -> String {
    format!("was {} is {}", version(read), version(there))
}

fn by(tx: &Option<u32>) -> String {
    tx.map_or(String::new(), |tx| format!(" by {tx}"))
}

fn text_fault(fault: &TextFault) -> &'static str {
    match fault {
        TextFault::TooLarge => "too-large",
        TextFault::Syntax => "syntax",
        TextFault::Role => "role",
        TextFault::Threshold => "threshold",
        TextFault::TooDeep => "too-deep",
    }
}

fn lack(lack: &Lack) -> String {
    let mut words = vec![lack.policy.clone()];
    words.extend(lack.signers.iter().map(who));
    if !lack.refused.is_empty() {
        words.push("refused".into());
        words.extend(lack.refused.iter().map(who));
    }
    if let Some(missing) = &lack.missing {
        words.push(format!("missing {}.{}", word(&missing.org), missing.role.map_or("member", Role::name)));
    }
    if lack.another_order {
        words.push("order".into());
    }
    words.join(" ")
}

fn range(name: &[u8], range: &Range, key: &[u8]) -> String {
    format!("{} {} {} key {}", word(name), word(&range.start), word(&range.end), word(key))
}

/// The words after the flag, each with a space before it.
fn said(cause: &Cause) -> String {
    use Cause::*;
    match cause {
        NoFault | NoTransaction => String::new(),
        BadSignature { creator } => format!(" creator {}", who(creator)),
        OtherChannel { name } => format!(" channel {}", word(name)),
        OtherId { id } => format!(" wanted {}", word(id)),
        UsedId { used, used_flag } => format!(" used {} {} {}", used.block, used.tx, flag(*used_flag)),
        NotAlone => " not-alone".into(),
        NoAdminPolicy => " no-admin-policy".into(),
        UpdateUndefined { name } | Undefined { name } => format!(" undefined {}", word(name)),
        UpdateUnreadable { text_fault: fault } => format!(" policy {}", text_fault(fault)),
        AdminUnsatisfied { lack: unmet } => format!(" admin {}", lack(unmet)),
        NamespaceRepeats { name } => format!(" repeated {}", word(name)),
        ReadRepeats { name, key } => format!(" repeated {} reads {}", word(name), word(key)),
        WriteRepeats { name, key } => format!(" repeated {} writes {}", word(name), word(key)),
        PolicyWriteRepeats { name, key } => format!(" repeated {} policies {}", word(name), word(key)),
        ResultFalls { name, range: asked, key, range_place, result_place } => {
            format!(" fallen {} range {range_place} result {result_place}", range(name, asked, key))
        }
        ResultLeaves { name, range: asked, key, range_place, result_place } => {
            format!(" outside {} range {range_place} result {result_place}", range(name, asked, key))
        }
        PolicyUnreadable { name, key, text_fault: fault } => {
            format!(" policy {} {} {}", word(name), word(key), text_fault(fault))
        }
        Touched { name, key, tx } => format!(" touched {} {} {tx}", word(name), word(key)),
        KeyUnsatisfied { name, key, lack: unmet } => format!(" key {} {} {}", word(name), word(key), lack(unmet)),
        ChaincodeUnsatisfied { name, key, lack: unmet } => {
            format!(" chaincode {} {} {}", word(name), word(key), lack(unmet))
        }
        NamedUnsatisfied { name, lack: unmet } => format!(" named {} {}", word(name), lack(unmet)),
        ReadConflict { name, key, read, there, by: tx } => {
            format!(" read {} {} {}{}", word(name), word(key), versions(read, there), by(tx))
        }
        PhantomConflict { name, key, read, there, by: tx, range: asked, exhausted } => {
            let part = if *exhausted { "all" } else { "part" };
            format!(" range {} {} {part}{}", range(name, asked, key), versions(read, there), by(tx))
        }
    }
}

fn header(receipt: &Receipt) -> String {
    let hash: String = receipt.header_hash.iter().map(|byte| format!("{byte:02x}")).collect();
    format!("block {} {hash}", receipt.number)
}

fn main() -> Result<(), Box<dyn Error>> {
    let mut files = std::env::args().skip(1).map(|path| std::fs::read(&path).map_err(|e| format!("{path}: {e}")));
    let mut next = || files.next().ok_or("explain CHANNEL KEYS BLOCK..".to_string())?;
    let mut ledger = Ledger::open(&next()?, &next()?)?;
    let mut last = next()?;
    for block in files {
        ledger.submit(&std::mem::replace(&mut last, block?))?;
    }
    let reasons = ledger.explain(&last)?;
    // which tells the block's header hash
    println!("{}", header(&ledger.submit(&last)?));
    for (place, reason) in reasons.iter().enumerate() {
        println!("{place} {}{}", flag(reason.flag), said(&reason.cause));
    }
    Ok(())
}
