//! The outside vectors kept in the repository, and damaged copies of them.

use reference::*;

/// A file of the repository's trials.
fn data(name: &str) -> Vec<u8> {
    let path = format!("{}/../crates/{name}", env!("CARGO_MANIFEST_DIR"));
    std::fs::read(&path).unwrap_or_else(|error| panic!("{path}: {error}"))
}

/// The whole pieces of a stream: a length, then that many bytes. A piece cut
/// short ends it.
fn pieces(stream: &[u8]) -> Vec<&[u8]> {
    let mut found = Vec::new();
    let mut rest = stream;
    while let Some((length, tail)) = rest.split_first_chunk() {
        let Some((piece, tail)) = tail.split_at_checked(u32::from_le_bytes(*length) as usize)
        else {
            break;
        };
        found.push(piece);
        rest = tail;
    }
    found
}

fn refused(refusal: Refusal) -> String {
    format!("refused {} {:08x}\n", refusal.number, refusal.place)
}

fn assert_lines(made: &str, wanted: &[u8]) {
    let wanted = std::str::from_utf8(wanted).unwrap();
    for (line, (a, b)) in made.lines().zip(wanted.lines()).enumerate() {
        assert_eq!(a, b, "line {}", line + 1);
    }
    assert_eq!(made.len(), wanted.len());
}

/// What a program writes that has `write` fill a buffer.
fn written(write: impl Fn(&mut [u8]) -> Result<u32, Refusal>) -> Vec<u8> {
    let mut out = vec![0xAA; 80 * 512 + 1];
    let written = write(&mut out);
    let length = written.unwrap_or(0) as usize;
    assert!(
        out[length..].iter().all(|&byte| byte == 0xAA),
        "wrote beyond its answer"
    );
    if length > 0 {
        let mut short = vec![0xAA; length - 1];
        assert_eq!(
            write(&mut short),
            Err(Refusal {
                number: 30,
                place: 0
            })
        );
        assert!(
            short.iter().all(|&byte| byte == 0xAA),
            "wrote into a short buffer"
        );
    }
    match written {
        Ok(_) => out[..length].to_vec(),
        Err(refusal) => refused_record(refusal).to_vec(),
    }
}

#[test]
fn texts() {
    let stream = data("trial_text/stdin");
    let wanted = data("trial_text/stdout");
    let libraries = pieces(&stream);
    assert_eq!(libraries.len(), 258);
    let mut rest = &wanted[..];
    for (index, file) in libraries.iter().enumerate() {
        for made in [
            written(|out| list(file, out)),
            written(|out| summarize(file, out)),
        ] {
            let (part, tail) = rest.split_at(made.len().min(rest.len()));
            assert!(
                made == part,
                "library {index}:\n{}",
                String::from_utf8_lossy(&made)
            );
            rest = tail;
        }
    }
    assert!(rest.starts_with(b"cut short"));
}

#[test]
fn checks() {
    let stream = data("trial_check/stdin");
    let mut made = String::new();
    for file in pieces(&stream) {
        if let Err(refusal) = check(file) {
            assert_eq!(report(file, 0), Err(refusal));
            made += &refused(refusal);
            continue;
        }
        let all: Vec<Report> = (0..)
            .map_while(|executable| report(file, executable).ok())
            .collect();
        made += &format!("accepted {}\n", all.len());
        for (executable, r) in all.iter().enumerate() {
            made +=
                &format!(
                "exe {executable} type {} main {} end {} in {} out {} con {} words {} most {}\n",
                r.shader_type, r.main, r.endmain, r.inputs, r.outputs, r.constants, r.words, r.total
            );
        }
        let past = report(file, all.len() as u32);
        assert_eq!(
            past,
            Err(Refusal {
                number: 29,
                place: 0
            })
        );
    }
    made += "cut short: 10 bytes of 100\n";
    assert_lines(&made, &data("trial_check/stdout"));
}

/// Takes at most `length` bytes off the front.
fn take<'a>(rest: &mut &'a [u8], length: usize) -> &'a [u8] {
    let (front, back) = rest.split_at(length.min(rest.len()));
    *rest = back;
    front
}

fn walk_line(file: &[u8], settings: &[u8]) -> String {
    let mut rest = &settings[1..];
    let bools = take(&mut rest, 16);
    let ints = take(&mut rest, 4);
    let mut fetched = [0xFFFF; 48];
    let steps = match walk(file, settings[0].into(), bools, ints, rest, &mut fetched) {
        Ok(steps) => steps,
        Err(refusal) => {
            assert_eq!(fetched, [0xFFFF; 48]);
            return refused(refusal);
        }
    };
    let mut line = format!("steps {steps} fetched");
    for index in &fetched[..48.min(steps as usize)] {
        line += &format!(" {index}");
    }
    line + if steps > 48 { " ...\n" } else { "\n" }
}

#[test]
fn walks() {
    let stream = data("trial_walk/stdin");
    let mut made = String::new();
    let mut all = pieces(&stream).into_iter();
    while let Some(file) = all.next() {
        for settings in all.by_ref().take_while(|piece| !piece.is_empty()) {
            made += &walk_line(file, settings);
        }
    }
    assert_lines(&made, &data("trial_walk/stdout"));
}

fn constant_text(found: Result<Constant, Refusal>) -> String {
    match found {
        Ok(Constant::Bool(value)) => format!("bool {}\n", u8::from(value)),
        Ok(Constant::Bytes([x, y, z, w])) => format!("int {x:02x} {y:02x} {z:02x} {w:02x}\n"),
        Ok(Constant::Vector(values)) => {
            let [x, y, z, w] = values.map(f32::to_bits);
            format!("vec {x:08x} {y:08x} {z:08x} {w:08x}\n")
        }
        Err(refusal) => refused(refusal),
    }
}

#[test]
fn constants() {
    let stream = data("trial_constants/stdin");
    let mut made = String::new();
    for file in pieces(&stream) {
        for executable in 0.. {
            for n in 0..13 {
                let found = constant(file, executable, n);
                made += &format!("{executable} {n} {}", constant_text(found));
                if found.is_err() {
                    break;
                }
            }
            if report(file, executable).is_err() {
                break;
            }
        }
    }
    assert_lines(&made, &data("trial_constants/stdout"));
}

struct Xorshift(u64);

impl Xorshift {
    fn next(&mut self) -> u64 {
        self.0 ^= self.0 << 13;
        self.0 ^= self.0 >> 7;
        self.0 ^= self.0 << 17;
        self.0
    }

    fn below(&mut self, limit: usize) -> usize {
        (self.next() % limit.max(1) as u64) as usize
    }
}

/// Flips a few bytes, most often in the headers, and at times cuts the end off.
fn damage(file: &mut Vec<u8>, random: &mut Xorshift) {
    for _ in 0..random.below(4) {
        let among = if random.below(2) == 0 {
            file.len()
        } else {
            file.len().min(512)
        };
        let at = random.below(among);
        if let Some(byte) = file.get_mut(at) {
            *byte ^= random.next() as u8;
        }
    }
    if random.below(4) == 0 {
        file.truncate(random.below(file.len() + 1));
    }
}

fn call_everything(file: &[u8], random: &mut Xorshift) {
    let mut out = vec![0; random.below(80 * 513)];
    let mut fetched = [0; 16];
    let settings: Vec<u8> = (0..random.below(40))
        .map(|_| random.next() as u8 & 3)
        .collect();
    let (bools, truth) = settings.split_at(settings.len().min(16));
    let executable = random.below(3) as u32;
    let answers = [
        check(file).err(),
        report(file, executable).err(),
        list(file, &mut out).err(),
        summarize(file, &mut out).err(),
        walk(file, executable, bools, &settings, truth, &mut fetched).err(),
        constant(file, executable, random.below(4) as u32).err(),
    ];
    for answer in answers {
        // Whatever the check refuses, every call refuses alike.
        assert!(answer == answers[0] || answers[0].is_none());
        if let Some(refusal) = answer {
            assert!(refused_record(refusal).starts_with(b"refused "));
        }
    }
    assert!(report(file, u32::MAX).is_err());
    assert!(constant(file, executable, u32::MAX).is_err());
    assert!(walk(file, u32::MAX, &[], &[], &[], &mut []).is_err());
    if let Ok(steps) = walk(file, executable, &[1; 16], &[255; 4], truth, &mut fetched) {
        assert!(steps <= report(file, executable).unwrap().total);
    }
}

fn recode(random: &mut Xorshift) {
    let word = random.next() as u32;
    if let Ok(decoded) = decode(word) {
        assert_eq!(encode(decoded.format, &decoded.fields), Ok(word));
    }
    let fields: Vec<u32> = (0..random.below(12))
        .map(|_| random.next() as u32 >> random.below(32))
        .collect();
    if let Ok(word) = encode(random.below(12) as u32, &fields) {
        assert_eq!(decode(word).unwrap().fields[..], fields[..8]);
    }
}

#[test]
fn damaged_libraries() {
    let stream = data("trial_check/stdin");
    let libraries = pieces(&stream);
    let mut random = Xorshift(0x9E37_79B9_7F4A_7C15);
    for _ in 0..20_000 {
        let mut file = libraries[random.below(libraries.len())].to_vec();
        damage(&mut file, &mut random);
        call_everything(&file, &mut random);
        recode(&mut random);
    }
}
