use super::*;

const SEVEN: &str = "grammar list 7 1 0,76,0,-,270;0,83,2,0.0,0;1,76,0,-,270;1,83,2,0.1,0;2,76,1,0,270;2,83,3,0.0.0,0;\
                     3,76,0,-,270;3,83,3,0.0.0,0;4,76,0,-,265;4,83,2,0.0,0;5,80,1,0,10;6,80,1,0,0";
const FILE: &str = "02626301010004004c0000010e00005300000000020000014c0000010e000153000000000200010101";

fn plays(script: &[(&str, &str)]) {
    let mut player = Player::default();
    for (line, answer) in script {
        assert_eq!(player.answer(line), *answer, "{line}");
    }
}

#[test]
fn calls() {
    plays(&[
        ("clear", "malformed"),
        (SEVEN, "ok"),
        ("compare 0 1 16384", "same 01010100"),
        ("compare 5.6 6.5 16384", "same 02010100060105"),
        ("compare 0 4 16384", "different 02010100060105 L"),
        ("clear", "00"),
        ("compare 0 3 16384", "different 00 SLL"),
        ("compare 5 6 16384", "different 00 PL"),
        ("compare - - 16384", "same 00"),
        ("compare - 0 16384", "different 00 -"),
        ("compare 0 7 16384", "refused comparer 14 2 0 00"),
        ("compare 0 0 16383", "refused comparer 15 16383 0 00"),
        ("run 0.0 SLLL", "taken 810"),
        ("run 0 SL", "not"),
        ("run 0 A*16385", "refused comparer 16 16385 0"),
        ("offer 01030100", "refused comparer 20 3 83 00"),
        ("offer 01000101", "refused comparer 18 0 0 00"),
        ("offer 0106020000", "refused comparer 19 6 0 00"),
        ("offer 01010100", "ok 01010100"),
        ("offer 01010100", "refused comparer 17 1 0 01010100"),
        ("offer 01", "refused file 1 1 0 01010100"),
        ("copy 2046", "refused comparer 21 2046 0"),
    ]);
}

#[test]
fn grammars() {
    let chain = |count: u64| {
        let rules: Vec<String> = (1..count).map(|k| format!("{k},65,2,{}.{}", k - 1, k - 1)).collect();
        format!("grammar list {count} - 0,65,0,-;{}", rules.join(";"))
    };
    for (grammar, answer) in [
        ("grammar list 33 - 0,65,5,0.0.0.0.0", "refused grammar 8 33 0"),
        ("grammar list 2 - 0,89,5,9.9.9.9.9;0,90,1,2", "refused grammar 9 0 89"),
        ("grammar list 2 - 0,90,1,2;1,66,5,0.0.0.0.0", "refused grammar 10 0 90"),
        ("grammar list 5 - 0,65,4,1.1.1.1;1,65,3,2.2.2;2,65,4,3.3.3.3;3,65,0,-;4,65,1,4", "refused grammar 11 4 0"),
        ("grammar list 4 - 0,65,4,1.1.1.1;1,65,3,2.2.2;2,65,4,3.3.3.3;3,65,0,-", "refused grammar 12 0 0"),
        (chain(6).as_str(), "taken -"),
        (chain(7).as_str(), "refused grammar 12 6 0"),
    ] {
        plays(&[(grammar, "ok"), ("run 1 AAA", answer)]);
    }
}

#[test]
fn files() {
    let whole = format!("{FILE}0100");
    let file = hex(&whole).unwrap();
    assert_eq!(list_file(&file, false), "b 1 b\nc 1 b\n");
    assert_eq!(list_file(&file, true), "b 1 b\nc 1 b\n");
    for (place, byte, text) in [
        (0, 0x21, "refused 2 0 0\n"),
        (2, 0x62, "refused 3 2 0\n"),
        (15, 0x4c, "refused 4 14 0\n"),
        (42, 2, "refused 5 42 0\n"),
        (42, 1, "refused 18 1 0\n"),
    ] {
        let mut damaged = file.clone();
        damaged[place] = byte;
        assert_eq!(list_file(&damaged, false), text);
    }
    assert_eq!(list_file(&[&file[..], &[0]].concat(), false), "refused 6 43 0\n");
    assert_eq!(list_file(&file[..42], false), "refused 1 42 0\n");
    assert_eq!(list_file(&[], false), "refused 1 0 0\n");
    plays(&[
        (&format!("check 1 {whole}"), "ok"),
        (&format!("check 12 {whole}"), "refused file 7 0 0"),
        (&format!("grammar file {whole}"), "ok"),
        ("offer 01010100", "ok 01010100"),
        ("write 6263 14565", &whole),
        ("write 62 14565", "refused file 2 0 0"),
        ("write 6262 14565", "refused file 3 2 0"),
        ("grammar twin", "ok"),
        (&format!("grammar file {whole}"), "ok"),
        ("clear", "malformed"),
        (&format!("grammar file {whole}"), "ok"),
        ("compare 0 3 16384", "same 02020100030100"),
    ]);
}

/// Small grammars at random: shown inputs part the words, no short input parts words that are the
/// same, and rows are taken over by a new comparer.
#[test]
fn histories() {
    let mut state = 1u64;
    let mut below = move |bound: u64| {
        state = state.wrapping_mul(6364136223846793005).wrapping_add(1442695040888963407);
        (state >> 33) % bound
    };
    let (mut same, mut longest) = (0, 0);
    for _ in 0..20_000 {
        let count = 2 + below(7);
        let mut rules = Vec::new();
        for symbol in 0..count {
            // Some symbols are like an earlier one, with other symbols in its words.
            let like = (symbol > 0 && below(2) == 0).then(|| below(symbol));
            for letter in b'A'..=b'C' {
                let old =
                    like.map(|like| rules.iter().find(|r: &&Rule| r.symbol == like && r.letter == letter).copied());
                let length = match old {
                    Some(None) => continue,
                    Some(Some(rule)) => rule.length,
                    None if below(4) == 0 => continue,
                    None => below(4).saturating_sub((letter == b'A') as u64),
                };
                let numbers = match old {
                    Some(Some(rule)) if below(16) > 0 => rule.numbers,
                    _ => [below(3) as u32 / 2, below(2) as u32],
                };
                let word = std::array::from_fn(|_| below(count));
                rules.push(Rule { symbol, letter, length, word, numbers });
            }
        }
        let new = || Comparer::<peer::Pair<peer::Foot, peer::OddOnes>>::new(count, rules.iter().copied());
        let mut comparer = new();
        if comparer.fault().is_some() {
            continue;
        }
        let mut out = vec![0; peer::MAX_INPUT];
        for _ in 0..12 {
            let word = |below: &mut dyn FnMut(u64) -> u64| (0..1 + below(3)).map(|_| below(count)).collect::<Vec<_>>();
            let (one, two) = (word(&mut below), word(&mut below));
            match comparer.compare(&one, &two, &mut out).unwrap() {
                Answer::Different(length) => {
                    longest = longest.max(length);
                    let input = &out[..length];
                    assert!(comparer.run(&one, input).unwrap() != comparer.run(&two, input).unwrap());
                }
                Answer::Same => {
                    same += (one != two) as u32;
                    for size in 0..7u32 {
                        for k in 0..3u32.pow(size) {
                            let input: Vec<u8> = (0..size).map(|at| b'A' + (k / 3u32.pow(at) % 3) as u8).collect();
                            assert!(comparer.run(&one, &input).unwrap() == comparer.run(&two, &input).unwrap());
                        }
                    }
                }
            }
            let mut rows = [0; peer::COPY_SIZE];
            let length = comparer.copy_rows(&mut rows).unwrap();
            assert_eq!(new().offer(&rows[..length]), Ok(()));
        }
    }
    assert!(same > 1_000 && longest > 8, "{same} {longest}");
}
