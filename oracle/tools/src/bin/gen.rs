//! gen SEED COUNT DIR: writes DIR/NNNNN.map (one text per file) and DIR/KINDS.txt
fn main() {
    let a: Vec<String> = std::env::args().collect();
    let (seed, n, dir) = (
        a[1].parse::<u64>().unwrap(),
        a[2].parse::<u64>().unwrap(),
        &a[3],
    );
    std::fs::create_dir_all(dir).unwrap();
    let mut kinds = String::new();
    for i in 0..n {
        let (b, k) = tools::make::text_case(seed, i);
        std::fs::write(format!("{}/{:05}.map", dir, i), b).unwrap();
        kinds.push_str(&format!("{:05} {}\n", i, k));
    }
    std::fs::write(format!("{}/KINDS.txt", dir), kinds).unwrap();
}
