//! Days seen in hindsight against the board. Where nothing is withdrawn, no plan bakes more
//! than the board (01, demand 3), so the plan's total is the board's. Of the first m racks,
//! and so of those of grade 0, the plan bakes at least as many as the board on every day.

mod common;

use common::hindsight::{as_plan, days, printed_day};
use model::hindsight::day::{Entry, Record};
use model::hindsight::plans::{baked_by_m, most_by_matching};
use model::hindsight::Window;
use model::program::run_bytes;

/// Hands on each day whose list is not refused: its name, its lines, its record, its list.
fn each_day<E: FnMut(&str, &[u8], &Record, &[Entry])>(seeds: u64, mut each: E) {
    for (name, input) in days(seeds) {
        let record = Record::of(&input[..]).expect("memory can be read");
        if let Ok(entries) = record.entries() {
            each(&name, &input, &record, &entries);
        }
    }
}

/// The list's windows.
fn windows(entries: &[Entry]) -> Vec<Window> {
    entries.iter().map(|entry| entry.window).collect()
}

/// How many racks the board baked and how many the plan bakes.
fn totals(entries: &[Entry]) -> (usize, usize) {
    let board = entries.iter().filter(|entry| entry.rack.baked > 0).count();
    let plan = entries.iter().filter(|entry| entry.slot > 0).count();
    (board, plan)
}

#[test]
fn the_plans_total_is_the_boards_where_nothing_is_withdrawn() {
    let (mut days, mut lost, mut depths) = (0, 0, [0; 4]);
    each_day(40, |name, _, record, entries| {
        if record.racks.iter().any(|rack| rack.withdrawn.is_some()) {
            return;
        }
        let (board, plan) = totals(entries);
        assert_eq!(board, plan, "{name}");
        days += 1;
        lost += usize::from(plan < entries.len());
        if let Some(depth) = record.depth {
            depths[depth as usize] += usize::from(plan > 0);
        }
    });
    assert!(days > 300 && lost > 150, "{days} {lost}");
    assert!(depths.iter().all(|&many| many > 30), "{depths:?}");
}

#[test]
fn the_plan_bakes_at_least_as_many_of_the_first_m_as_the_board() {
    // In how many lists the plan bakes more: of all racks, and of those of grade 0.
    let (mut more, mut more_of_best) = (0, 0);
    each_day(80, |name, _, _, entries| {
        let windows = windows(entries);
        let board: Vec<u32> = entries.iter().map(|entry| entry.rack.baked).collect();
        let plan: Vec<u32> = entries.iter().map(|entry| entry.slot).collect();
        let of_best = entries.iter().filter(|entry| entry.rack.job.grade == 0);
        let of_best = of_best.count();
        // What the board baked is a plan of the same list.
        let board = baked_by_m(&as_plan(&windows, &board), windows.len());
        let plan = baked_by_m(&as_plan(&windows, &plan), windows.len());
        assert!(
            plan.iter().zip(&board).all(|(plan, board)| plan >= board),
            "{name}"
        );
        more += usize::from(plan.last() > board.last());
        more_of_best += usize::from(plan[of_best] > board[of_best]);
    });
    assert!(more > 50 && more_of_best > 50, "{more} {more_of_best}");
}

#[test]
fn no_plan_bakes_more_of_the_first_m() {
    let mut lists = 0;
    each_day(12, |name, _, _, entries| {
        let windows = windows(entries);
        let slots: Vec<u32> = entries.iter().map(|entry| entry.slot).collect();
        let plan = baked_by_m(&as_plan(&windows, &slots), windows.len());
        assert_eq!(plan, most_by_matching(&windows), "{name}");
        lists += 1;
    });
    assert!(lists > 150, "{lists}");
}

/// The figures of a printed line after its letter.
fn figures(line: &str) -> Vec<u32> {
    let figures = line.split(',').skip(1);
    figures
        .map(|figure| figure.parse().expect("a number"))
        .collect()
}

/// The grade that an A line holds, at this depth.
fn grade(line: &str, depth: u32) -> u32 {
    let field = line.rsplit(',').next().unwrap_or("");
    field.parse().unwrap_or((1 << depth) - 1)
}

/// A rack as it is drawn from the board's output: ticket, grade, first slot, last slot,
/// the slot in which it was baked.
type Drawn = [u32; 5];

/// The racks of a day, drawn from the lines that the board's program prints.
fn drawn(input: &[u8]) -> Vec<Drawn> {
    let output = String::from_utf8(run_bytes(input)).expect("text");
    let answers = output.lines().filter(|line| !line.starts_with(['G', 'T']));
    let lines = input.split(|&byte| byte == b'\n');
    let (mut depth, mut closed, mut racks) = (0, 0, Vec::<Drawn>::new());
    for (line, answer) in lines.zip(answers) {
        let figures = figures(answer);
        match answer.as_bytes()[0] {
            b'D' => depth = figures[0],
            b'A' => {
                let line = String::from_utf8_lossy(line);
                racks.push([figures[0], grade(&line, depth), closed + 1, figures[1], 0]);
            }
            b'B' => {
                closed = figures[0];
                let baked = racks.iter_mut().find(|rack| rack[0] == figures[1]);
                baked.into_iter().for_each(|rack| rack[4] = closed);
            }
            b'W' => {
                let withdrawn = racks.iter_mut().find(|rack| rack[0] == figures[0]);
                withdrawn.expect("it was admitted")[3] = closed;
            }
            _ => {}
        }
    }
    racks.retain(|rack| rack[2] <= closed);
    racks
        .iter_mut()
        .for_each(|rack| rack[3] = rack[3].min(closed));
    racks.sort_by_key(|rack| (rack[1], rack[0]));
    racks
}

#[test]
fn the_list_is_that_of_the_lines_the_board_prints() {
    let (mut lists, mut withdrawn) = (0, 0);
    each_day(40, |name, input, record, entries| {
        let output = printed_day(input);
        let lines = output.lines().filter(|line| line.starts_with("H,"));
        let listed: Vec<Vec<u32>> = lines.map(|line| figures(line)[..5].to_vec()).collect();
        let drawn: Vec<Vec<u32>> = drawn(input).iter().map(|rack| rack.to_vec()).collect();
        assert_eq!(listed, drawn, "{name}");
        lists += usize::from(!entries.is_empty());
        let mut racks = record.racks.iter();
        withdrawn += usize::from(racks.any(|rack| rack.withdrawn.is_some()));
    });
    assert!(lists > 300 && withdrawn > 150, "{lists} {withdrawn}");
}

#[test]
fn the_totals_are_those_of_the_lines_above_them() {
    each_day(20, |name, input, record, entries| {
        let output = printed_day(input);
        let lines: Vec<&str> = output.lines().collect();
        let grades = record.depth.map_or(0, |depth| 1 << depth);
        assert_eq!(lines.len(), entries.len() + grades + 1, "{name}");
        let (racks, totals) = lines.split_at(entries.len());
        let racks: Vec<Vec<u32>> = racks.iter().map(|line| figures(line)).collect();
        let mut all = [0; 3];
        for (grade, line) in totals[..grades].iter().enumerate() {
            let of_grade = racks.iter().filter(|rack| rack[1] == grade as u32);
            let mut wanted = [0; 3];
            for rack in of_grade {
                wanted[0] += 1;
                wanted[1] += u32::from(rack[4] > 0);
                wanted[2] += u32::from(rack[5] > 0);
            }
            let [count, board, plan] = wanted;
            assert_eq!(*line, format!("T,{grade},{count},{board},{plan}"), "{name}");
            all = [all[0] + count, all[1] + board, all[2] + plan];
        }
        let last = format!("S,{},{},{}", all[0], all[1], all[2]);
        assert_eq!(totals[grades], last, "{name}");
    });
}
