//! The lines of the model's programs `cases` and `sound`, as terms.

use crate::antt::list;

/// The term of a line.
pub fn case(line: &str) -> String {
    match line.split_whitespace().next() {
        Some("board") => board(&line[5..]),
        Some("book") => calls(&line[4..]),
        Some("withdraw") => withdrawal(&line[8..]),
        _ => soundness(line),
    }
}

/// The numbers of a piece.
fn numbers(piece: &str) -> Vec<u64> {
    let words = piece.split_whitespace();
    words.map(|word| word.parse().expect("a number")).collect()
}

/// Pieces as lists of their numbers.
fn lists(pieces: &[&str]) -> String {
    let lists: Vec<String> = pieces.iter().map(|piece| list(&numbers(piece))).collect();
    list(&lists)
}

/// A piece as arguments.
fn arguments(piece: &str) -> String {
    piece.split_whitespace().collect::<Vec<_>>().join(" ")
}

fn places(pieces: &[&str]) -> String {
    let places: Vec<String> = pieces
        .iter()
        .map(|piece| format!("place {}", arguments(piece)))
        .collect();
    list(&places)
}

/// `SOUND DEPTH SLOT HIGHEST COUNT ; PLACE ; ...`
fn soundness(line: &str) -> String {
    let pieces: Vec<&str> = line.split(';').collect();
    let head = numbers(pieces[0]);
    let sound = head[0] == 1;
    format!(
        "sound_right (board {} {} {} {} {}) {sound}",
        head[1],
        head[2],
        head[3],
        head[4],
        places(&pieces[1..])
    )
}

/// `DEPTH SLOT HIGHEST ; JOB ; ... => TICKET GRADE SHORTFALL ; EXPIRED ; ... | LAID ... | PROMISE KEPT ...`
fn board(line: &str) -> String {
    let (asked, told) = line.split_once("=>").expect("an arrow");
    let (told, plans) = told.split_once('|').expect("a bar");
    let (laid, promised) = plans.split_once('|').expect("a second bar");
    let asked: Vec<&str> = asked.split(';').collect();
    let told: Vec<&str> = told.split(';').collect();
    let baked = numbers(told[0]);
    let gone = &told[1..];
    let answer = [0, baked[0], baked[1], gone.len() as u64, baked[2]];
    let highest = numbers(asked[0])[2];
    let promised = numbers(promised);
    format!(
        "board_right (board {} {} {}) {} {} {} {} {}",
        arguments(asked[0]),
        asked.len() - 1,
        places(&asked[1..]),
        list(&answer),
        lists(gone),
        list(&numbers(laid)),
        promised[0],
        list(&kept(&promised[1..], highest))
    )
}

/// The tickets of a plan that keeps the promise; the further rack, told as 0, has the next one.
fn kept(told: &[u64], highest: u64) -> Vec<u64> {
    let ticket = |&ticket: &u64| if ticket == 0 { highest + 1 } else { ticket };
    told.iter().map(ticket).collect()
}

/// `DEPTH SLOT HIGHEST ; JOB ; ... | TICKET => NUMBER GRADE ; JOB ; ...`
fn withdrawal(line: &str) -> String {
    let (asked, told) = line.split_once("=>").expect("an arrow");
    let (asked, ticket) = asked.split_once('|').expect("a bar");
    let asked: Vec<&str> = asked.split(';').collect();
    let told: Vec<&str> = told.split(';').collect();
    format!(
        "withdraw_right (board {} {} {}) {} {} {}",
        arguments(asked[0]),
        asked.len() - 1,
        places(&asked[1..]),
        arguments(ticket),
        list(&numbers(told[0])),
        lists(&told[1..])
    )
}

/// `DEPTH SLOT HIGHEST ; CALL ; ... => ANSWER ; ... | STRETCH | STRETCH ...`
fn calls(line: &str) -> String {
    let (asked, told) = line.split_once("=>").expect("an arrow");
    let (told, stretches) = told.split_once('|').expect("a bar");
    let stretches: Vec<String> = stretches.split('|').map(stretch).collect();
    let asked: Vec<&str> = asked.split(';').collect();
    let calls: Vec<String> = asked[1..].iter().map(|piece| call(piece)).collect();
    let told: Vec<&str> = told
        .split(';')
        .filter(|piece| !piece.trim().is_empty())
        .collect();
    let answers: Vec<String> = asked[1..]
        .iter()
        .zip(told)
        .map(|(call, told)| answer(call, told))
        .collect();
    assert_eq!(calls.len(), answers.len(), "an answer a call");
    format!(
        "book_right {} {} {} {}",
        arguments(asked[0]),
        list(&calls),
        list(&answers),
        list(&stretches)
    )
}

/// `SLOT HIGHEST ; JOB ; ... ; K0 K1 ...`
fn stretch(told: &str) -> String {
    let told: Vec<&str> = told.split(';').collect();
    let last = told.len() - 1;
    format!(
        "stretch {} {} {}",
        arguments(told[0]),
        lists(&told[1..last]),
        list(&numbers(told[last]))
    )
}

fn call(piece: &str) -> String {
    let piece = piece.trim();
    match piece.split_at(1) {
        ("A", rest) => format!("admit {}", arguments(rest)),
        ("B", rest) => format!("close {}", arguments(rest)),
        ("W", rest) => format!("withdraw {}", arguments(rest)),
        _ => panic!("no call: {piece}"),
    }
}

/// An answer as its numbers, the refusal first and, where it is one, 0 for the rest.
fn answer(call: &str, told: &str) -> String {
    let closes = call.trim().starts_with('B');
    let told = told.trim();
    let mut answer = numbers(&told[1..]);
    if !told.starts_with('R') {
        answer.insert(0, 0);
    }
    answer.resize(if closes { 5 } else { 2 }, 0);
    list(&answer)
}
