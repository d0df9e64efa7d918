//! Each call over the sample's blocks.
use fabcommit::{Cause, Error, Flag, Ledger, Listing, Receipt, Version};

fn file(name: &str) -> Vec<u8> {
    let path = format!("{}/../../../sample/{name}", env!("CARGO_MANIFEST_DIR"));
    std::fs::read(&path).unwrap_or_else(|e| panic!("{path}: {e}"))
}

fn blocks() -> Vec<Vec<u8>> {
    (0..6).map(|number| file(&format!("block{number}.blk"))).collect()
}

/// The ledger of all blocks, and their receipts.
fn committed() -> (Ledger, Vec<Receipt>) {
    let mut ledger = Ledger::open(&file("channel.txt"), &file("keys.txt")).unwrap();
    let receipts = blocks().iter().map(|block| ledger.submit(block).unwrap()).collect();
    (ledger, receipts)
}

#[test]
fn blocks_are_told_again() {
    let (mut ledger, receipts) = committed();
    assert_eq!(ledger.height(), Ok(6));
    for (number, receipt) in (0..).zip(receipts) {
        assert_eq!(ledger.block(number), Ok(Some(receipt)));
        assert_eq!(ledger.flags(number).unwrap().unwrap().len(), receipt.transactions);
    }
    assert_eq!((ledger.block(6), ledger.flags(6)), (Ok(None), Ok(None)));
    let flags = [Flag::Valid, Flag::Valid, Flag::EndorsementPolicyFailure, Flag::DuplicateTxid, Flag::BadPayload];
    assert_eq!(ledger.flags(0).unwrap().unwrap(), flags);
}

#[test]
fn refusals_change_nothing() {
    let (mut ledger, _) = committed();
    assert_eq!(ledger.submit(b"x"), Err(Error::Malformed { fault: Some(1) }));
    assert_eq!(ledger.explain(b"x"), Err(Error::Malformed { fault: Some(1) }));
    assert_eq!(ledger.submit(&blocks()[1]), Err(Error::WrongNumber { wanted: 6, got: 1 }));
    assert_eq!(Listing::of(b"x").err(), Some(Error::Malformed { fault: None }));
    assert_eq!(ledger.get(b"no name", b"k"), Err(Error::NoName));
    assert_eq!(ledger.scan(b"no name", b"", b"").collect::<Vec<_>>(), [Err(Error::NoName)]);
    assert_eq!(ledger.first_use(b"short"), Err(Error::NoName));
    assert_eq!(ledger.height(), Ok(6));
    assert_eq!(Ledger::open(b"none", b"").err(), Some(Error::NoChannel));
    assert_eq!(Ledger::open(b"\xff", b"").err(), Some(Error::NoText));
    assert_eq!(Ledger::open(&file("channel.txt"), b"none").err(), Some(Error::NoKeys));
}

#[test]
fn rows_and_histories_fit() {
    let (mut ledger, _) = committed();
    let rows: Vec<_> = ledger.scan(b"cc", b"", b"").map(|row| row.unwrap()).collect();
    let keys: Vec<_> = rows.iter().map(|row| row.key.as_slice()).collect();
    assert_eq!(keys, [b"car2", b"car3", b"car4"]);
    assert_eq!(ledger.scan(b"cc", b"car3", b"car4").count(), 1);
    for row in rows {
        assert_eq!(ledger.get(b"cc", &row.key), Ok(Some(row.clone())));
        let newest = ledger.history(b"cc", &row.key).unwrap().next().unwrap();
        assert_eq!((newest.value, newest.version), (Some(row.value), row.version));
        assert_eq!(ledger.first_use(&newest.id).unwrap().unwrap().version, row.version);
    }
    let writes = ledger.history(b"cc", b"car1").unwrap();
    assert_eq!(writes.len(), 4);
    assert_eq!(writes.map(|write| write.value.is_some()).collect::<Vec<_>>(), [false, true, true, true]);
    assert_eq!(ledger.get(b"cc", b"car1"), Ok(None));
    assert_eq!(ledger.first_use(&[b'0'; 64]), Ok(None));
    assert_eq!(ledger.history(b"cc", b"never").unwrap().next(), None);
}

#[test]
fn policies_are_told() {
    let (mut ledger, _) = committed();
    assert_eq!(ledger.definition(b"cc").unwrap().unwrap(), "OR('Org1.peer','Org2.peer','Org1.admin')");
    assert_eq!(ledger.definition(b"none"), Ok(None));
    assert_eq!(ledger.key_policy(b"cc", b"car2").unwrap().unwrap(), "AND('Org1.peer','Org2.peer')");
    assert_eq!(ledger.key_policy(b"cc", b"car3"), Ok(None));
}

#[test]
fn answers_stand_for_keys() {
    let (_, receipts) = committed();
    let mut ledger = Ledger::open(&file("channel.txt"), b"").unwrap();
    for (block, receipt) in blocks().iter().zip(receipts) {
        let mut listing = Listing::of(block).unwrap();
        listing.check(|request| request.signature.len() == 32);
        assert_eq!(ledger.submit_by(&listing), Ok(receipt));
    }
    let block = file("every_flag.blk");
    let mut listing = Listing::of(&block).unwrap();
    for reason in ledger.explain_by(&listing).unwrap() {
        assert!(
            matches!(
                reason.cause,
                Cause::NoTransaction | Cause::BadSignature { .. } | Cause::NotAlone | Cause::OtherChannel { .. }
            ),
            "{reason:?}"
        );
    }
    for place in 0..listing.len() {
        listing.answer(place, true);
    }
    let reasons = ledger.explain_by(&listing).unwrap();
    assert!(reasons
        .iter()
        .any(|reason| matches!(reason.cause, Cause::UsedId { used: Version { block: 0, tx: 0 }, .. })));
}

#[test]
fn rows_come_in_parts() {
    let (mut ledger, _) = committed();
    let rows: Vec<_> = ledger.scan(b"cc", b"", b"").collect();
    for at_once in 0..4 {
        assert_eq!(ledger.scan(b"cc", b"", b"").at_once(at_once).collect::<Vec<_>>(), rows);
    }
}

#[test]
fn shares_are_queried_at_the_same_time() {
    let (mut ledger, _) = committed();
    let rows: Vec<_> = ledger.scan(b"cc", b"", b"").collect();
    let shares: Vec<_> = (0..4).map(|_| ledger.share().unwrap()).collect();
    std::thread::scope(|threads| {
        let scans = |mut share: Ledger| move || (0..100).map(|_| share.scan(b"cc", b"", b"").collect()).collect();
        let asked: Vec<_> = shares.into_iter().map(|share| threads.spawn(scans(share))).collect();
        assert_eq!(ledger.scan(b"cc", b"", b"").collect::<Vec<_>>(), rows);
        for thread in asked {
            let found: Vec<Vec<_>> = thread.join().unwrap();
            assert!(found.len() == 100 && found.iter().all(|scan| *scan == rows));
        }
    });
}

#[test]
fn a_shared_ledger_takes_no_block() {
    let (mut ledger, _) = committed();
    let block = file("every_flag.blk");
    let mut share = ledger.share().unwrap();
    for ledger in [&mut ledger, &mut share] {
        assert_eq!(ledger.submit(&block), Err(Error::Shared));
        assert_eq!(ledger.height(), Ok(6));
    }
    drop(ledger);
    assert_eq!(share.submit(&block).unwrap().number, 6);
    assert_eq!(share.share().unwrap().height(), Ok(7));
}

#[test]
fn ledgers_go_to_other_threads() {
    let (mut ledger, _) = committed();
    assert_eq!(std::thread::spawn(move || ledger.height()).join().unwrap(), Ok(6));
}
