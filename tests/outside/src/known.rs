//! The repository's own sheets, whose figures are not worked out by either of the two that are compared.

use crate::calculator::Calculation;

/// The camera's bounds are document 01's; those of the example and the slots are worked out by hand at the end of their
/// texts in sheets/. The last figure is the number of constructs, counted by hand as `run` says.
const SHEETS: [(&str, &[u64], u64); 4] = [
    ("camera_plain", &[3_744, 551_475_096], 52),
    ("camera_marked", &[3_744, 46_810_232], 53),
    ("example", &[550, 7_136], 15),
    ("slots", &[550, 7_136, 7_791], 46),
];

pub fn agree() -> Result<bool, String> {
    let mut agree = true;
    for (name, figures, constructs) in SHEETS {
        let path = format!("{}/../../sheets/{name}.bin", env!("CARGO_MANIFEST_DIR"));
        let sheet = std::fs::read(&path).map_err(|error| format!("{path}: {error}"))?;
        let accepted = maxt::Answer::Accepted { bound: figures[figures.len() - 1] };
        let (mut table, mut other) = ([0; maxt::TABLE_PLACES], [0; maxt::TABLE_PLACES]);
        let answered = maxt::answer(&sheet, &mut table) == accepted && table[..figures.len()] == *figures;
        let archive = answered && maxt::work(&sheet, &mut other) == (accepted, constructs) && other == table;
        let calculation = Calculation::of(&sheet, None);
        let calculator = calculation.outcome() == Ok(figures) && calculation.work(&mut other).1 == constructs;
        println!("sheets/{name}.bin: archive {}, calculator {}", word(archive), word(calculator));
        agree &= archive && calculator;
    }
    Ok(agree)
}

fn word(right: bool) -> &'static str {
    if right {
        "right"
    } else {
        "WRONG"
    }
}
