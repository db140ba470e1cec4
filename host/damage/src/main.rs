//! Prints the table of docs/TRUST.md: what became of damaged slots and streams.

fn main() {
    println!("| damage | damaged | refused | read as something else |");
    println!("|---|---:|---:|---:|");
    for row in damage::rows() {
        println!("{}", damage::shown(&row));
    }
}
