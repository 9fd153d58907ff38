//! The text of a module.

use std::fs;
use std::io;
use std::path::Path;

/// The imports of a module of cases.
const HEADER: &str = "\
use mathlib.Core.Path.{◌≡◌, refl}
use mathlib.Core.Bool.{Bool, true, false}
use mathlib.Core.List.{List, [], ◌∷◌}
use Prim.Native.Nat.{ℕ}
use Rattle.lists.specs.Select.{every}
use Rattle.claims.specs.Calls.{admit, close, withdraw}
use Rattle.cases.proofs.Right.{place, board, sound_right, board_right, withdraw_right, stretch, book_right, day_right, sheet_right, figures, page_right}
";

/// A module that holds if every case does.
pub fn module(cases: &[String], unfolding: &str) -> String {
    let cases = list(cases);
    format!(
        "{HEADER}\ncases : List Bool\ncases = {cases}\n\n\
         all_right : every (λ b. b) cases ≡ true\nunfolding cases {unfolding}\nall_right = refl\n"
    )
}

/// A list of terms.
pub fn list<T: ToString>(items: &[T]) -> String {
    let mut text = String::new();
    for item in items {
        text.push_str(&item.to_string());
        text.push_str(" ∷ ");
    }
    format!("({text}[])")
}

/// The library's definitions that a case computes with.
const LIBRARY: [&str; 2] = ["mathlib.Core.List.flatten", "mathlib.Core.List.flat_map"];

/// The definitions that a case computes with, by their whole names: those of the
/// library, all that the crates' specs/ mark `unfoldable`, and those of `cases`.
pub fn unfoldable_names(crates: &Path) -> io::Result<String> {
    let mut names: Vec<String> = LIBRARY.iter().map(ToString::to_string).collect();
    for name in [
        "lists",
        "rule",
        "books",
        "feasibility",
        "board",
        "claims",
        "lines",
    ] {
        let folder = crates.join(name).join("specs");
        for module in modules(&folder)? {
            let text = fs::read_to_string(folder.join(format!("{module}.antt")))?;
            names.extend(marked(&text).map(|word| format!("Rattle.{name}.specs.{module}.{word}")));
        }
    }
    let right = fs::read_to_string(crates.join("cases").join("proofs").join("Right.antt"))?;
    names.extend(marked(&right).map(|word| format!("Rattle.cases.proofs.Right.{word}")));
    Ok(names.join(" "))
}

fn modules(folder: &Path) -> io::Result<Vec<String>> {
    let root = fs::read_to_string(folder.join("Lib.antt"))?;
    let names = root
        .lines()
        .filter_map(|line| line.strip_prefix("pub mod "));
    Ok(names.map(|name| name.trim().to_string()).collect())
}

fn marked(text: &str) -> impl Iterator<Item = &str> {
    let signatures = text
        .lines()
        .filter_map(|line| line.strip_prefix("unfoldable pub "));
    signatures.filter_map(|rest| rest.split_whitespace().next())
}
