//! The smallest program: is this text a document?

fn main() {
    let text = "[jobs.main]\nledger = \"main.db\"\n";
    println!("{}", deckmarten::text_fits(text.as_bytes()));
}
