//! A row of the definitions' tables that asks about a list of paths.

use examples::BatchRow;

use crate::ask::exact;

/// The library gives the row's refusal, and every place of the three slices holds
/// what the row says. Nothing that is given is changed.
pub fn check_batch_row(row: &BatchRow) {
    let given = [&row.file, &row.name, &row.paths].map(|part| exact(part));
    let ends: Box<[usize]> = Box::from(row.ends.as_slice());
    let [before, after] = row.slices.clone();
    let mut slices = before.map(Vec::into_boxed_slice);
    let [refusals, sides, lines] = &mut slices;
    let refusal = library::batch(
        row.dialect,
        &given[0],
        &given[1],
        &given[2],
        &ends,
        refusals,
        sides,
        lines,
    );
    assert_eq!((refusal, slices.map(Vec::from)), (row.refusal, after));
    let [file, name, paths] = given;
    let kept = *file == *row.file && *name == *row.name && *paths == *row.paths;
    assert!(kept && *ends == *row.ends, "changed: {row:?}");
}
