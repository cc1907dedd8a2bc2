//! Counts the packets of standard input, in two parts that are then merged.
mod packets;

use wolfaren::statistics::Statistics;

fn main() {
    let packets = packets::of_input();
    let (first, second) = packets.split_at(packets.len() / 2);
    let mut all = Statistics::new();
    for part in [first, second] {
        let mut statistics = Statistics::new();
        for packet in part {
            statistics.count_packet(packet);
        }
        all.merge(&statistics);
    }
    println!("{} packets, {} of IPv6", all.packets, all.ipv6);
    println!("{} first fragments", all.first_fragments);
    println!("{} fragment headers", all.headers[44]);
    println!(
        "{} truncated, {} faulty",
        all.at_truncated_header, all.at_fault
    );
}
