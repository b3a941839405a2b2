//! Finds one table by the index and prints its lines.

use deckmarten::{Refusal, Room};

fn main() -> Result<(), Refusal> {
    let text = b"[jobs.main]\nledger = \"main.db\"\n[jobs.mail]\nledger = \"mail.db\"\n[[hosts]]\n";
    let mut room = Room::new();
    let answer = room.parse_text(text);
    let index = answer.index()?;
    let header = index.find(text, "jobs.mail").expect("the table is there");
    for event in answer.events_of(&header) {
        print!("{}", String::from_utf8_lossy(&text[event.span.range()]));
    }
    Ok(())
}
