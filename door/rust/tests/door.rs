use gelmuska::{Command, Observer, Reading, Refusal, Word, report, rounds};

#[test]
fn reports_a_script() {
    assert_eq!(report(b"").unwrap(), b"");
    assert_eq!(report(b"P 1 C 03\n").unwrap(), b"P 3\n");
    assert_eq!(report(b"P 1 C 04\no 200000032\nr\n").unwrap(), b"P 0\no 0\nr 0 0 0 0 200000032\nsound 1 of 1\n");
    assert_eq!(report(&[b'\n'; 4097]), Err(Refusal::Page));
}

#[test]
fn packs_and_reads_words() {
    let word = Word { label: 3, kind: 0, payload: 0 };
    assert_eq!(word.pack(), Ok(0x0300_0000_0000_5CD3));
    assert_eq!(Word::read(0x0300_0000_0000_5CD3), Ok(word));
    assert_eq!(Word::read(0x0300_0000_0000_5CD2), Err(Refusal::Spoilt));
    assert_eq!(Word { label: 0, kind: 16, payload: 0 }.pack(), Err(Refusal::Code));
    assert_eq!(Word { label: 0, kind: 0, payload: 1 << 36 }.pack(), Err(Refusal::Code));
    let top = Word { label: 255, kind: 15, payload: (1 << 36) - 1 };
    assert_eq!(Word::read(top.pack().unwrap()), Ok(top));
}

#[test]
fn packs_and_unpacks_commands() {
    let run = Command { code: 2, argument: 60 };
    assert_eq!(run.pack(), Ok(0x2_0000_003C));
    assert_eq!(Command::unpack(0x2_0000_003C), Ok(run));
    assert_eq!(Command { code: 2, argument: 61 }.pack(), Err(Refusal::Code));
    assert_eq!(Command::unpack(u64::MAX), Err(Refusal::Code));
}

#[test]
fn packs_and_unpacks_readings() {
    let right = Reading { axle: 2, side: 1, force: 1250, pressure: 640 };
    assert_eq!(right.pack(), Ok(0x2_8271_1400));
    assert_eq!(Reading::unpack(0x2_8271_1400), Ok(right));
    assert_eq!(Reading { side: 2, ..right }.pack(), Err(Refusal::Code));
    assert_eq!(Reading { axle: 13, ..right }.pack(), Err(Refusal::Code));
    assert_eq!(Reading::unpack(0x2_8271_1401), Err(Refusal::Code));
}

#[test]
fn exchanges_on_a_new_link() {
    assert_eq!(rounds(1, 4, 0), Ok(Observer { completed: 0, first: 0 }));
    assert_eq!(rounds(1, 4, 3), Ok(Observer { completed: 3, first: 1 }));
    assert_eq!(rounds(2, 10, 100_000).unwrap().first, 1);
    assert_eq!(rounds(1, 3, 1), Err(Refusal::Labels));
    assert_eq!(rounds(3, 4, 1), Err(Refusal::Size));
}
