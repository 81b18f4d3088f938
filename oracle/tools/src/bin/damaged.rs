//! damaged SEED COUNT DIR: only malformed texts
fn main() {
    let a: Vec<String> = std::env::args().collect();
    let dir = &a[3];
    std::fs::create_dir_all(dir).unwrap();
    let mut r = tools::Rng(a[1].parse().unwrap());
    let mut kinds = String::new();
    for i in 0..a[2].parse::<u64>().unwrap() {
        let k = if r.pct(70) {
            "tiny"
        } else {
            tools::make::KINDS[r.below(18) as usize]
        };
        let m = tools::make::gen_map(k, &mut r);
        let (b, n) = tools::make::damage(&m, &mut r);
        std::fs::write(format!("{}/{:05}.map", dir, i), b).unwrap();
        kinds.push_str(&format!("{:05} malformed:{}\n", i, n));
    }
    std::fs::write(format!("{}/KINDS.txt", dir), kinds).unwrap();
}
