fn main() {
    let words: Vec<_> = std::env::args_os().skip(1).collect();
    println!("{words:?} into out.txt");
}
