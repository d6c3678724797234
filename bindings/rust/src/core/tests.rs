use super::*;
use crate::audit;
use crate::log::Mark;

const EXPORTS: &str = include_str!("../../../../crates/zangipuk_c/src/exports.rt");
const REPLY: &str = include_str!("../../../../crates/zangipuk_c/src/reply.rt");
const TOLD: &str = include_str!("../../../../crates/zangipuk_c/src/told.rt");
const MARKS: &str = include_str!("../../../../crates/zangipuk_c/src/marks.rt");
const HERE: &str = include_str!("../core.rs");
const LOG: &str = include_str!("../log.rs");

// What stands behind a text, up to one of these letters, without white space.
fn behind(text: &str, from: &str, to: &[char]) -> String {
    let at = text
        .find(from)
        .unwrap_or_else(|| panic!("{from} isn't there"))
        + from.len();
    let end = at + text[at..].find(to).unwrap();
    text[at..end].split_whitespace().collect()
}

// A function's parameters and its result, without an allocator and a comma at the end.
fn declared(text: &str, name: &str) -> String {
    let words = behind(text, &format!("fn {name}("), &['{', ';']);
    let signature = words.split("requires*").next().unwrap();
    let signature = signature.split("ghost").next().unwrap();
    signature.replace("alloc:Global,", "").replace(",)", ")")
}

#[test]
fn the_declarations_are_those_of_the_library() {
    let block = &HERE[HERE.find("unsafe extern").unwrap()..];
    for name in ["zangipuk_room", "zangipuk_open", "zangipuk_step"] {
        assert_eq!(declared(block, name), declared(EXPORTS, name), "{name}");
    }
    assert_eq!(EXPORTS.matches("extern \"C\" fn").count(), 3);
    let fields = |text: &'static str| -> Vec<&str> {
        let body = &text[text.find("struct Reply {").unwrap()..];
        let lines = body
            .lines()
            .skip(1)
            .map(str::trim)
            .take_while(|line| *line != "}");
        lines.filter(|line| line.starts_with("pub ")).collect()
    };
    assert_eq!(fields(HERE), fields(REPLY));
}

#[test]
fn the_kinds_are_those_of_the_library() {
    let named: Vec<&str> = REPLY
        .lines()
        .filter(|line| line.starts_with("pub const "))
        .collect();
    assert_eq!(named.len(), 13);
    for (kind, line) in (0..).zip(named) {
        let name = behind(line, "pub const ", &[':']);
        assert_eq!(line, format!("pub const {name}: u32 = {kind};"));
        let reply = Reply {
            kind,
            ..Reply::default()
        };
        let spelled = format!("{:?}", reply.kind()).to_uppercase();
        assert_eq!(spelled, name.replace('_', ""));
    }
}

#[test]
fn the_codes_are_those_of_the_library() {
    let mut codes = 0;
    for line in TOLD.lines().map(str::trim) {
        let Some((code, step)) = line.trim_end_matches(',').split_once(" => Step::") else {
            continue;
        };
        if code != "_" {
            codes += 1;
            assert!(HERE.contains(&format!("    {step} = {code},")), "{step}");
        }
    }
    assert_eq!(codes, 30);
    assert!(TOLD.contains(&format!("pub const FREE: u32 = {FREE};")));
}

#[test]
fn the_marks_are_those_of_the_library() {
    assert!(MARKS.contains("const ASKED: u32 = 20;"));
    let marks = LOG
        .lines()
        .map(str::trim)
        .filter(|line| line.contains(" => Mark::"));
    let mut count = 0;
    for (at, line) in (0..).zip(marks) {
        let (kind, mark) = line.split_once(" => Mark::").unwrap();
        assert_eq!(kind.parse(), Ok(20 + at));
        let name = mark.split([' ', ',']).next().unwrap();
        let arm = &MARKS[MARKS.find(&format!("Mark::{name}")).unwrap()..];
        assert_eq!(behind(arm, "marked(", &[',']), at.to_string(), "{name}");
        count += 1;
    }
    assert_eq!(count, 12);
}

// xorshift: numbers without a crate.
fn next(seed: &mut u64) -> u64 {
    *seed ^= *seed << 13;
    *seed ^= *seed >> 7;
    *seed ^= *seed << 17;
    *seed
}

fn marks_of(core: &mut Core, from: u64, to: u64) -> Vec<Mark> {
    let mut mark = |ticket| {
        Mark::of(&core.step(
            Step::MarkAt,
            Told {
                ticket,
                ..Told::default()
            },
        ))
    };
    (from..to).map(|at| mark(at).unwrap()).collect()
}

fn limits(max: u32, min: u32) -> Limits {
    Limits {
        max,
        min,
        timeout: 50,
        lifetime: 500,
        idle: 200,
        log: true,
    }
}

// What a random caller knows: the newest numbers that it was told, and the time.
#[derive(Default)]
struct Known {
    ticket: u64,
    conn: u64,
    now: u64,
}

// Any codes and any numbers, mostly such that they meet the pool's; a close and a leak come seldom.
fn any_step(core: &mut Core, known: &mut Known, seed: &mut u64) -> (u32, Told, Reply) {
    let mut small = |below: u64| match next(seed) % 50 {
        0 => next(seed),
        n => n % below,
    };
    known.now += small(3) % 3;
    let told = Told {
        client: u32::from(small(8) == 0),
        ticket: known.ticket.wrapping_sub(small(4) / 2),
        conn: known.conn.wrapping_sub(small(4) / 2),
        raw: small(9),
        now: known.now.wrapping_sub(small(2)),
    };
    // Half of them are the steps of a loan.
    let loan = [
        Step::Ask,
        Step::Start,
        Step::TestAccepted,
        Step::Opened,
        Step::Give,
        Step::TryAcquire,
    ];
    let mut code = match small(12) {
        at @ 0..6 => loan[at as usize] as u32,
        _ => small(34) as u32,
    };
    let spared = [Step::Close as u32, Step::Leak as u32].contains(&code) && small(20) != 3;
    if code == FREE || spared {
        code = Step::Ask as u32;
    }
    let reply = core.call(code, told);
    match reply.kind() {
        Kind::Done if code == Step::Ask as u32 => known.ticket = reply.id,
        Kind::Ready | Kind::Test => known.conn = reply.id,
        _ => {}
    }
    (code, told, reply)
}

// No step requires anything of its numbers. Whatever they were, the log goes on, is fair, and has what was lent.
#[test]
fn any_numbers_may_be_told() {
    let (mut seed, mut loans) = (7, 0);
    for round in 0..300 {
        let max = [1, 3, 1000][round % 3];
        let mut core = Core::open(limits(max, 2)).unwrap();
        let mut known = Known::default();
        for _ in 0..2000 {
            let before = core.step(Step::LogLength, Told::default()).id;
            let (code, told, reply) = any_step(&mut core, &mut known, &mut seed);
            assert!(reply.kind <= 12 || (20..32).contains(&reply.kind));
            assert!(core.step(Step::Size, told).id <= u64::from(max));
            let after = core.step(Step::LogLength, Told::default()).id;
            assert!(before <= after);
            if code < Step::Closing as u32 && reply.kind() == Kind::Ready {
                let lent = Mark::Lent {
                    client: told.client,
                    conn: reply.id,
                };
                assert!(marks_of(&mut core, before, after).contains(&lent));
                loans += 1;
            }
        }
        let length = core.step(Step::LogLength, Told::default()).id;
        let mut log = marks_of(&mut core, 0, length);
        assert_eq!(audit(max, &log), Ok(()));
        log.insert(0, Mark::Lent { client: 1, conn: 1 });
        assert!(audit(max, &log).is_err());
    }
    assert!(loans > 1000, "{loans}");
}

// A ticket that waits is entitled exactly where its number is below the edge: then its poll goes on, and else it waits.
#[test]
fn the_edge_tells_whose_turn_it_is() {
    let mut core = Core::open(limits(2, 0)).unwrap();
    let told = |client, ticket| Told {
        client,
        ticket,
        now: 1,
        ..Told::default()
    };
    for ticket in 1..=5 {
        assert_eq!(core.step(Step::Ask, told(1, 0)).id, ticket);
    }
    for ticket in (1..=5).rev() {
        let edge = core.step(Step::Size, Told::default()).edge;
        let kind = core.step(Step::Start, told(1, ticket)).kind();
        assert_eq!(
            kind,
            if ticket < edge {
                Kind::Connect
            } else {
                Kind::Waiting
            }
        );
    }
}

#[test]
fn a_pool_that_was_let_go_answers_that_it_holds_nothing() {
    let mut core = Core::open(limits(2, 0)).unwrap();
    let told = Told::default();
    assert_eq!(core.step(Step::Ask, told).kind(), Kind::Done);
    assert_eq!(core.call(FREE, told).kind(), Kind::Done);
    for code in [Step::Ask, Step::Size, Step::Close] {
        assert_eq!(core.step(code, told).kind(), Kind::NotHeld);
    }
    assert!(Core::open(limits(0, 0)).is_none());
}

#[test]
fn a_log_is_kept_where_it_is_asked_for() {
    let mut core = Core::open(Limits {
        log: false,
        ..limits(1, 0)
    })
    .unwrap();
    assert_eq!(
        core.step(Step::LogLength, Told::default()).kind(),
        Kind::None
    );
    assert_eq!(core.step(Step::MarkAt, Told::default()).kind(), Kind::None);
}
