use sellumaq::JudyL;

fn main() {
    let roots: JudyL = (1..=5).map(|n| (n * n, n)).collect();
    println!("{} squares", roots.count(4..=16));
}
