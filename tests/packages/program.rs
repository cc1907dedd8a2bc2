// Asks a filter of the Rust package.
fn main() {
    let filter = wolfaren::filter::TextFilter::parse("ip6".into()).unwrap();
    println!("{} of 1", u8::from(filter.filter().matches(&[0x60; 40])));
}
