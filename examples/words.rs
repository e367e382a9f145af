use sellumaq::JudySl;

fn main() {
    let mut times = JudySl::new();
    for word in std::env::args().skip(1) {
        *times.slot(word).unwrap() += 1;
    }
    for (word, count) in times.range("b"..) {
        println!("{} {count}", String::from_utf8_lossy(&word));
    }
}
