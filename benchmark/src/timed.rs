//! Times of one call on several sides, and as lines from one process to another.

use std::time::Duration;

/// What was timed, and the time of each side, ours first.
#[derive(Debug)]
pub struct Timed {
    pub name: String,
    /// Whether the lists that our side was lent are the model's, entry by entry; so too where none is lent.
    pub same_lists: bool,
    pub times: Vec<Duration>,
}

impl Timed {
    /// The name, whether the lists are the same, and the times in nanoseconds, with tabs between.
    pub fn line(&self) -> String {
        let times = self.times.iter().map(|time| time.as_nanos().to_string());
        let head = [self.name.clone(), self.same_lists.to_string()];
        let words: Vec<String> = head.into_iter().chain(times).collect();
        words.join("\t")
    }

    /// What `line` has written.
    pub fn read(line: &str) -> Timed {
        let mut words = line.split('\t');
        let name = words.next().unwrap_or_default().into();
        let same_lists = words.next() == Some("true");
        let times = words
            .map(|word| Duration::from_nanos(word.parse().expect("nanoseconds")))
            .collect();
        Timed {
            name,
            same_lists,
            times,
        }
    }
}

/// The call of this name, if it is among these.
pub fn called<'a>(calls: &'a [Timed], name: &str) -> Option<&'a Timed> {
    calls.iter().find(|call| call.name == name)
}

/// In how many of these calls our side's lists are not the model's.
pub fn other_lists(calls: &[Timed]) -> usize {
    calls.iter().filter(|call| !call.same_lists).count()
}

/// Keeps the lesser times of two passes. Where there was no pass yet, all are kept.
pub fn keep_least(best: &mut Vec<Timed>, pass: Vec<Timed>) {
    if best.is_empty() {
        *best = pass;
        return;
    }
    assert_eq!(best.len(), pass.len());
    for (least, timed) in best.iter_mut().zip(pass) {
        assert_eq!(least.name, timed.name);
        assert_eq!(least.same_lists, timed.same_lists, "{}", timed.name);
        for (least, time) in least.times.iter_mut().zip(timed.times) {
            *least = (*least).min(time);
        }
    }
}
