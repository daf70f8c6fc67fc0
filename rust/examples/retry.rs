//! A call has timed out, and the switch tries again: was the retry's debit written already? Each debit is a row, keyed by card
//! and retry number. It has to be there once: stepped over, the card is debited twice; a row off, a stranger is billed.

use slatedb_block::{check, BlockBuilderV2, BlockIteratorV2, Refusal, RowEntry};

fn key(card: u64, retry: u64) -> Vec<u8> {
    [card.to_be_bytes(), retry.to_be_bytes()].concat()
}

fn debit(card: u64, retry: u64, cents: u32, seq: u64) -> RowEntry {
    RowEntry::new_value(&key(card, retry), &cents.to_be_bytes(), seq)
}

fn block_of(debits: Vec<RowEntry>) -> Result<Vec<u8>, Refusal> {
    let mut builder = BlockBuilderV2::new(4096)?;
    for row in debits {
        if !builder.add(row)? {
            return Err(Refusal::RowDoesNotFit);
        }
    }
    builder.build()
}

/// All debits of one retry.
fn debits_of(block: &[u8], card: u64, retry: u64) -> Result<Vec<RowEntry>, Refusal> {
    let wanted = key(card, retry);
    let mut rows = BlockIteratorV2::new_ascending(block)?;
    rows.seek(&wanted)?;
    rows.take_while(|row| row.as_ref().map_or(true, |row| row.key == wanted))
        .collect()
}

/// What an agent quotes on the phone: the row's sequence number, and where it stands.
fn quoted(row: &RowEntry) -> String {
    let place = row.region().zip(row.number());
    place.map_or_else(String::new, |(region, number)| {
        format!("{} in region {region}, row {number}", row.seq)
    })
}

fn say(block: &[u8], card: u64, retry: u64) -> Result<(), Refusal> {
    let found = debits_of(block, card, retry)?;
    let rows = found.iter().map(quoted).collect::<Vec<_>>().join("; ");
    match found.len() {
        0 => println!("card {card}, retry {retry}: absent, to be debited"),
        1 => println!("card {card}, retry {retry}: present as {rows}: not to be debited again"),
        n => println!("card {card}, retry {retry}: debited {n} times, as {rows}: call the desk"),
    }
    Ok(())
}

fn main() -> Result<(), Refusal> {
    let mut debits = Vec::new();
    for card in 5000..5010 {
        for retry in 1..4 {
            debits.push(debit(card, retry, 25, debits.len() as u64));
        }
    }
    // the slip that the desk fears: the same retry once more, the newer one first
    debits.insert(15, debit(5005, 1, 25, 99));
    let block = block_of(debits.clone())?;
    println!("{} rows in {} bytes", check(&block)?, block.len());
    say(&block, 5003, 2)?;
    say(&block, 5003, 4)?;
    say(&block, 5005, 1)?;
    // one debit written twice, number and all, is in no block that the check accepts
    debits.insert(16, debit(5005, 1, 25, 99));
    if let Err(refusal) = check(&block_of(debits)?) {
        println!("a block with one debit twice: {refusal}");
    }
    Ok(())
}
