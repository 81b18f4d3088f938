//! Maps of many kinds, damaged map texts, and tables that no calls made.

use crate::judge::Tables;
use crate::maps::Map;
use crate::rng::Rng;
use grid_util::point::Point;

pub const KINDS: [&str; 20] = [
    "open",
    "sparse",
    "dense",
    "verydense",
    "maze",
    "rooms",
    "onerow",
    "onecol",
    "big",
    "same",
    "endblocked",
    "outside",
    "stripes",
    "few",
    "spiral",
    "tiny",
    "bigrooms",
    "checker",
    "malformed",
    "malformed",
];

fn fill(w: i32, h: i32, r: &mut Rng, p: u64) -> Vec<bool> {
    (0..w * h).map(|_| r.pct(p)).collect()
}
fn maze(w: i32, h: i32, r: &mut Rng) -> Vec<bool> {
    let mut b = vec![true; (w * h) as usize];
    let mut stack = vec![(0, 0)];
    b[0] = false;
    while let Some(&(x, y)) = stack.last() {
        let mut opts = vec![];
        for (dx, dy) in [(2, 0), (-2, 0), (0, 2), (0, -2)] {
            let (a, c) = (x + dx, y + dy);
            if a >= 0 && c >= 0 && a < w && c < h && b[(c * w + a) as usize] {
                opts.push((dx, dy))
            }
        }
        if opts.is_empty() {
            stack.pop();
            continue;
        }
        let (dx, dy) = opts[r.below(opts.len() as u64) as usize];
        b[((y + dy / 2) * w + x + dx / 2) as usize] = false;
        b[((y + dy) * w + x + dx) as usize] = false;
        stack.push((x + dx, y + dy));
    }
    b
}
pub fn rooms(w: i32, h: i32, r: &mut Rng) -> Vec<bool> {
    let mut b = vec![false; (w * h) as usize];
    let k = r.range(4, 12);
    let gate = |r: &mut Rng| r.pct(85);
    for y in 0..h {
        for x in 0..w {
            if x % k == k - 1 || y % k == k - 1 {
                b[(y * w + x) as usize] = true
            }
        }
    }
    let mut y0 = 0;
    while y0 < h {
        let mut x0 = 0;
        while x0 < w {
            if gate(r) {
                let y = y0 + r.range(0, k - 2);
                let x = x0 + k - 1;
                if x < w && y < h {
                    b[(y * w + x) as usize] = false
                }
            }
            if gate(r) {
                let x = x0 + r.range(0, k - 2);
                let y = y0 + k - 1;
                if x < w && y < h {
                    b[(y * w + x) as usize] = false
                }
            }
            x0 += k;
        }
        y0 += k;
    }
    b
}
pub fn gen_map(kind: &str, r: &mut Rng) -> Map {
    let (mut w, mut h) = (r.range(1, 24), r.range(1, 24));
    if r.pct(15) {
        w = r.range(1, 64);
        h = r.range(1, 64)
    }
    let diagonal = r.pct(65);
    let blocked = match kind {
        "open" => fill(w, h, r, 0),
        "sparse" => {
            let p = r.range(3, 15) as u64;
            fill(w, h, r, p)
        }
        "dense" => {
            let p = r.range(20, 40) as u64;
            fill(w, h, r, p)
        }
        "verydense" => {
            let p = r.range(45, 70) as u64;
            fill(w, h, r, p)
        }
        "maze" => {
            w |= 1;
            h |= 1;
            w = w.min(63);
            h = h.min(63);
            let mut m = maze(w, h, r);
            for i in 0..m.len() {
                if r.pct(2) {
                    m[i] = false
                }
            }
            m
        }
        "rooms" => rooms(w, h, r),
        "onerow" => {
            h = 1;
            w = r.range(1, 64);
            let p = if r.pct(50) { 0 } else { 5 };
            fill(w, h, r, p)
        }
        "onecol" => {
            w = 1;
            h = r.range(1, 64);
            let p = if r.pct(50) { 0 } else { 5 };
            fill(w, h, r, p)
        }
        "big" => {
            w = 64;
            h = 64;
            let p = [0, 1, 5, 10, 20, 30, 35, 40][r.below(8) as usize];
            fill(w, h, r, p)
        }
        "bigrooms" => {
            w = 64;
            h = 64;
            rooms(w, h, r)
        }
        "stripes" => {
            // diagonal walls with holes
            let k = r.range(2, 7);
            let s = if r.pct(50) { 1 } else { -1 };
            let p = r.range(3, 30) as u64;
            let mut b = vec![false; (w * h) as usize];
            for y in 0..h {
                for x in 0..w {
                    if (x + s * y).rem_euclid(k) == 0 && !r.pct(p) {
                        b[(y * w + x) as usize] = true
                    }
                }
            }
            b
        }
        "checker" => {
            let p = r.range(0, 25) as u64;
            let k = r.range(1, 3);
            let mut b = vec![false; (w * h) as usize];
            for y in 0..h {
                for x in 0..w {
                    b[(y * w + x) as usize] = ((x / k + y / k) % 2 == 0) != r.pct(p)
                }
            }
            b
        }
        "few" => {
            let mut b = vec![false; (w * h) as usize];
            let n = r.range(1, 6);
            for _ in 0..n {
                let i = r.below((w * h) as u64) as usize;
                b[i] = true
            }
            b
        }
        "spiral" => {
            let mut b = vec![false; (w * h) as usize];
            let k = r.range(2, 4);
            let mut i = k - 1;
            let mut side = 0;
            while i < w / 2 && i < h / 2 {
                for x in i..w - i {
                    b[(i * w + x) as usize] = true;
                    b[((h - 1 - i) * w + x) as usize] = true
                }
                for y in i..h - i {
                    b[(y * w + i) as usize] = true;
                    b[(y * w + w - 1 - i) as usize] = true
                }
                let gy = if side == 0 { i } else { h - 1 - i }; // gate at a corner side
                let gx = i + 1 + r.range(0, (w - 2 * i - 2).max(1) - 1);
                if gx < w {
                    b[(gy * w + gx) as usize] = false
                }
                side = 1 - side;
                i += k;
            }
            b
        }
        "tiny" => {
            w = r.range(1, 5);
            h = r.range(1, 5);
            let p = r.range(0, 50) as u64;
            fill(w, h, r, p)
        }
        _ => {
            let p = r.range(0, 35) as u64;
            fill(w, h, r, p)
        }
    };
    let mut m = Map {
        w,
        h,
        diagonal,
        start: Point::new(0, 0),
        goal: Point::new(0, 0),
        blocked,
    };
    let want_blocked = kind == "endblocked";
    let pick = |m: &Map, r: &mut Rng, blocked: bool| -> Point {
        for _ in 0..400 {
            let p = Point::new(r.range(0, m.w - 1), r.range(0, m.h - 1));
            if m.blocked[(p.y * m.w + p.x) as usize] == blocked {
                return p;
            }
        }
        Point::new(r.range(0, m.w - 1), r.range(0, m.h - 1))
    };
    m.start = pick(&m, r, want_blocked && r.clone().pct(60));
    m.goal = pick(&m, r, want_blocked && r.clone().pct(60));
    if kind == "big" || kind == "bigrooms" {
        if r.pct(60) {
            m.start = Point::new(0, 0);
            m.goal = Point::new(63, 63);
            m.blocked[0] = false;
            m.blocked[4095] = false
        }
    }
    if kind == "same" {
        m.goal = m.start
    }
    if kind == "outside" {
        let o = |m: &Map, r: &mut Rng| match r.below(6) {
            0 => Point::new(-1, r.range(0, m.h)),
            1 => Point::new(m.w, r.range(0, m.h)),
            2 => Point::new(r.range(0, m.w), -1),
            3 => Point::new(r.range(0, m.w), m.h),
            4 => Point::new(-1024, 1023),
            _ => Point::new(r.range(-1024, 1023), r.range(-1024, 1023)),
        };
        if r.pct(70) {
            m.start = o(&m, r)
        }
        if r.pct(70) {
            m.goal = o(&m, r)
        }
        if r.pct(10) {
            m.goal = m.start
        }
    }
    m
}
pub fn damage(m: &Map, r: &mut Rng) -> (Vec<u8>, &'static str) {
    let t = m.text();
    let mut lines: Vec<String> = t.lines().map(|s| s.to_string()).collect();
    let n = lines.len();
    let join = |l: &Vec<String>| {
        let mut s = l.join("\n");
        if !l.is_empty() {
            s.push('\n')
        }
        s.into_bytes()
    };
    let any = r.below(n as u64) as usize;
    let rowi = 5 + r.below((n - 5) as u64) as usize;
    let co = 3 + r.below(2) as usize;
    let name = ["start", "goal"][co - 3];
    let what = r.below(48);
    macro_rules! put {
        ($i:expr, $s:expr, $n:expr) => {{
            lines[$i] = $s;
            (join(&lines), $n)
        }};
    }
    match what {
        0 => {
            lines.remove(any);
            (join(&lines), "line dropped")
        }
        1 => {
            let l = lines[any].clone();
            lines.insert(any, l);
            (join(&lines), "line doubled")
        }
        2 => {
            let j = r.below(n as u64) as usize;
            lines.swap(any, j);
            (join(&lines), "lines swapped")
        }
        3 => put!(any, format!("{} ", lines[any]), "trailing space"),
        4 => put!(any, format!(" {}", lines[any]), "leading space"),
        5 => put!(any, format!("{}\r", lines[any]), "carriage return"),
        6 => {
            let mut b = join(&lines);
            b.pop();
            (b, "no last newline")
        }
        7 => {
            let mut b = join(&lines);
            b.push(b'\n');
            (b, "empty line at the end")
        }
        8 => {
            let mut b = join(&lines);
            b.extend_from_slice(b"row=");
            (b, "rest without newline")
        }
        9 => {
            lines.push("row=.".into());
            (join(&lines), "one more line")
        }
        10 => put!(0, "width=0".into(), "width 0"),
        11 => put!(0, "width=65".into(), "width 65"),
        12 => put!(0, format!("width=0{}", m.w), "width leading zero"),
        13 => put!(0, "width=99999999999999999999".into(), "width huge"),
        14 => put!(0, "width=".into(), "width empty"),
        15 => put!(0, format!("width=-{}", m.w), "width negative"),
        16 => put!(1, "height=0".into(), "height 0"),
        17 => put!(1, "height=65".into(), "height 65"),
        18 => put!(1, format!("height=+{}", m.h), "height plus"),
        19 => put!(
            1,
            format!("height={}", (m.h + 1).min(64)),
            "height one more"
        ),
        20 => put!(1, format!("height={}", (m.h - 1).max(1)), "height one less"),
        21 => put!(2, "diagonal=2".into(), "diagonal 2"),
        22 => put!(2, "diagonal=01".into(), "diagonal 01"),
        23 => put!(2, "diagonal=".into(), "diagonal empty"),
        24 => put!(2, "diagonal=-0".into(), "diagonal -0"),
        25 => put!(co, format!("{}=-0,0", name), "-0"),
        26 => put!(co, format!("{}=0,-0", name), "-0 second"),
        27 => put!(co, format!("{}=1024,0", name), "1024"),
        28 => put!(co, format!("{}=0,-1025", name), "-1025"),
        29 => put!(co, format!("{}=00,0", name), "00"),
        30 => put!(co, format!("{}=0", name), "one coordinate"),
        31 => put!(co, format!("{}=0,0,0", name), "three coordinates"),
        32 => put!(co, format!("{}=,0", name), "empty coordinate"),
        33 => put!(co, format!("{}=0,", name), "empty second"),
        34 => put!(co, format!("{}=+1,0", name), "plus"),
        35 => put!(co, format!("{}=-01,0", name), "-01"),
        36 => put!(co, format!("{}=--1,0", name), "--1"),
        37 => put!(
            rowi,
            {
                let mut s = lines[rowi].clone();
                s.pop();
                s
            },
            "row short"
        ),
        38 => put!(rowi, format!("{}.", lines[rowi]), "row long"),
        39 => put!(
            rowi,
            {
                let mut s = lines[rowi].clone();
                s.pop();
                s.push(['@', ' ', 'O', 'x', '0', '='][r.below(6) as usize]);
                s
            },
            "row character"
        ),
        40 => put!(rowi, lines[rowi].replace("row=", "Row="), "row key"),
        41 => (Vec::new(), "empty input"),
        42 => (b"\n".to_vec(), "only a newline"),
        43 => {
            let mut b = join(&lines);
            let i = r.below(b.len() as u64) as usize;
            b[i] = [0u8, 0xff, 0x80, b'\n', b' ', b'9'][r.below(6) as usize];
            (b, "byte changed")
        }
        44 => {
            let mut b = join(&lines);
            let i = r.below(b.len() as u64) as usize;
            b.truncate(i);
            (b, "cut off")
        }
        45 => {
            let mut b = join(&lines);
            while b.len() < 8192 {
                b.push(b'.')
            }
            if r.pct(50) {
                b.push(b'.');
                (b, "8193 bytes")
            } else {
                (b, "8192 bytes")
            }
        }
        46 => {
            let mut b = join(&lines);
            while b.len() < 8191 {
                b.push(b'\n')
            }
            b.push(b'\n');
            if r.pct(50) {
                b.push(b'\n');
                (b, "8193 newlines")
            } else {
                (b, "8192 newlines")
            }
        }
        _ => {
            let mut b = join(&lines);
            let i = r.below(b.len() as u64 + 1) as usize;
            b.insert(
                i,
                [b'0', b'-', b'\n', b'.', b'=', b','][r.below(6) as usize],
            );
            (b, "byte inserted")
        }
    }
}
/// one case: text and the name of its kind
pub fn text_case(seed: u64, i: u64) -> (Vec<u8>, String) {
    let mut r = Rng(seed
        .wrapping_mul(1_000_003)
        .wrapping_add(i.wrapping_mul(0x5851F42D4C957F2D)));
    r.next();
    let kind = KINDS[(i % KINDS.len() as u64) as usize];
    if kind == "malformed" {
        let k = KINDS[r.below(18) as usize];
        let m = gen_map(k, &mut r);
        let (b, n) = damage(&m, &mut r);
        (b, format!("malformed:{}", n))
    } else {
        (gen_map(kind, &mut r).text().into_bytes(), kind.to_string())
    }
}

/// Legal tables that no calls made: true masks with noise or any masks, any forest whose ranks rise to the roots.
pub fn any_tables(side: i32, r: &mut Rng) -> Tables {
    let (w, h) = (r.range(1, side) as usize, r.range(1, side) as usize);
    let n = w * h;
    let density = r.range(0, 50) as u64;
    let mut both = crate::judge::Both::new(w, h);
    both.diagonal(r.pct(50));
    for y in 0..h as i32 {
        for x in 0..w as i32 {
            if r.pct(density) {
                both.set(x, y, true)
            }
        }
    }
    both.rebuild();
    let mut t = both.tables();
    let noise = [0, 3, 20, 100][r.below(4) as usize];
    for i in 0..n {
        if r.pct(noise) {
            t.neighbours[i] = r.next() as u8
        }
        if r.pct(noise) {
            t.forced[i] = r.next() as u8
        }
    }
    if r.pct(35) {
        any_forest(&mut t, r);
    }
    // any byte but 0 is a blocked cell
    for b in &mut t.blocked {
        if *b != 0 && r.pct(30) {
            *b = r.range(1, 255) as u8
        }
    }
    t.dirty = r.pct(30);
    t
}
/// Each cell gets a rank up to 200 and, often, a parent of higher rank.
fn any_forest(t: &mut Tables, r: &mut Rng) {
    let n = t.w * t.h;
    let most = [0, 2, 12, 200][r.below(4) as usize];
    let alone = [2, 10, 60][r.below(3) as usize];
    for i in 0..n {
        t.rank[i] = r.range(0, most) as u8
    }
    for i in 0..n {
        let p = r.below(n as u64) as usize;
        t.parent[i] = if t.rank[p] > t.rank[i] && !r.pct(alone) {
            p as u16
        } else {
            i as u16
        };
    }
}
/// Tables that are not legal, by one fault.
pub fn illegal_tables(side: i32, r: &mut Rng) -> Tables {
    let mut t = any_tables(side, r);
    let n = t.w * t.h;
    let i = r.below(n as u64) as usize;
    match r.below(6) {
        0 => t.rank[i] = r.range(201, 255) as u8,
        1 => t.parent[i] = r.range(n as i32, 65_535) as u16,
        2 => t.parent[i] = n as u16,
        3 if n > 1 => {
            let p = (i + 1 + r.below(n as u64 - 1) as usize) % n;
            t.parent[i] = p as u16;
            t.rank[i] = t.rank[p];
        }
        4 => t.w = [0, 65, 1000][r.below(3) as usize],
        _ => t.h = [0, 65, 1000][r.below(3) as usize],
    }
    assert!(!t.legal());
    t
}

/// The numbers of a list of waypoints: aligned and not, repeats, all lengths; some are refused.
pub fn any_numbers(most: i32, w: i32, h: i32, r: &mut Rng) -> Vec<i32> {
    let n = match r.below(30) {
        0 => 0,
        1 => 1,
        _ => r.range(1, most),
    };
    let mut v = vec![];
    let mut p = Point::new(r.range(0, w - 1), r.range(0, h - 1));
    for _ in 0..n {
        v.extend([p.x, p.y]);
        p = match r.below(40) {
            0 => Point::new(r.range(-1024, 1023), p.y),
            1 => Point::new([-1025, 1024][r.below(2) as usize], p.y),
            2 => Point::new(p.x, [-1025, 1024, 32_767][r.below(3) as usize]),
            3 => p,
            4..=9 => Point::new(r.range(-1, w), r.range(-1, h)),
            10..=19 => {
                let (d, k) = (r.range(0, 7), r.range(1, 6));
                (0..k).fold(p, |q, _| q.moore_neighbor(d))
            }
            _ => Point::new(r.range(0, w - 1), r.range(0, h - 1)),
        };
    }
    if r.pct(4) {
        v.pop();
    }
    v
}
/// The numbers of a list for the route check on a floor. Its waypoints are mostly free cells, so that what lies between them decides;
/// the first may be blocked, outside or repeated, and later ones come back to it. At times the list has one fault, or several.
pub fn check_numbers(w: i32, h: i32, blocked: &[bool], r: &mut Rng) -> Vec<i32> {
    let (benches, aisles): (Vec<i32>, Vec<i32>) = (0..w * h).partition(|i| blocked[*i as usize]);
    let among = |cells: &[i32], r: &mut Rng| match cells.len() as u64 {
        0 => Point::new(r.range(0, w - 1), r.range(0, h - 1)),
        n => {
            let i = cells[r.below(n) as usize];
            Point::new(i % w, i / w)
        }
    };
    let near = |r: &mut Rng| Point::new(r.range(-3, w + 2), r.range(-3, h + 2));
    let far = |r: &mut Rng| Point::new(r.range(-1024, 1023), r.range(-1024, 1023));
    let first = match r.below(12) {
        0 => near(r),
        1 => far(r),
        2..=4 => among(&benches, r),
        _ => among(&aisles, r),
    };
    let mut list = vec![first; 1 + r.pct(12) as usize];
    for _ in 0..r.below(7) {
        let last = list[list.len() - 1];
        list.push(match r.below(24) {
            0..=2 => first,
            3 => last,
            4 => near(r),
            5 => far(r),
            6 => among(&benches, r),
            7..=11 => {
                let (d, k) = (r.range(0, 7), r.range(1, 5));
                (0..k).fold(last, |p, _| p.moore_neighbor(d))
            }
            _ => among(&aisles, r),
        });
    }
    let mut v: Vec<i32> = list.iter().flat_map(|p| [p.x, p.y]).collect();
    for _ in 0..[0, 0, 0, 0, 0, 0, 0, 0, 1, 2][r.below(10) as usize] {
        let i = r.below(v.len() as u64) as usize;
        v[i] = [-1025, 1024, 32_767, -32_768][r.below(4) as usize];
    }
    if r.pct(4) {
        v.pop();
    }
    if r.pct(2) {
        v.clear();
    }
    v
}
pub fn points_of(v: &[i32]) -> Vec<Point> {
    v.chunks(2).map(|c| Point::new(c[0], c[1])).collect()
}
