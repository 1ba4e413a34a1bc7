//! Calls the five functions on heap blocks of exactly the lent size, so that valgrind sees every step outside them.

use doarpezwim::ffi;
use inputs::{Case, Export, Filing, Lookup, Rng, Size, Step};

const SEED: u64 = 0x0d0a_29e2_0004;

/// Each argument of the account call in a block of its own.
fn account(case: Case, rng: &mut Rng) -> u32 {
    let file = case.file.into_boxed_slice();
    let mut rows = rng.garbage_u64(case.rows).into_boxed_slice();
    let mut concentration = rng.garbage_u32(case.concentration).into_boxed_slice();
    let mut flow = rng.garbage_u32(case.flow).into_boxed_slice();
    let mut answer = Box::new([0; doarpezwim::ANSWER_CELLS]);
    // SAFETY: every pointer comes with the length of its own block.
    unsafe {
        ffi::doarpezwim_account(
            file.as_ptr(),
            file.len(),
            rows.as_mut_ptr(),
            rows.len(),
            concentration.as_mut_ptr(),
            concentration.len(),
            flow.as_mut_ptr(),
            flow.len(),
            &mut *answer,
        )
    }
}

fn panel(step: Step) -> u32 {
    let (mut total, mut hours, mut missing) = (Box::new(step.total), Box::new(step.hours), Box::new(step.missing));
    // SAFETY: the three pointers are blocks of their own.
    unsafe {
        ffi::doarpezwim_panel_hour(&mut *total, &mut *hours, &mut *missing, step.kind, step.concentration, step.flow)
    }
}

fn survey(lookup: Lookup) -> u32 {
    let (enforcement, plant) = (lookup.enforcement.into_boxed_slice(), lookup.plant.into_boxed_slice());
    let mut part = Box::new([0; 14]);
    // SAFETY: every pointer comes with the length of its own block.
    unsafe {
        ffi::doarpezwim_governing_survey(
            enforcement.as_ptr(),
            enforcement.len(),
            plant.as_ptr(),
            plant.len(),
            lookup.hour,
            &mut *part,
        )
    }
}

fn import(export: Export, rng: &mut Rng) -> u32 {
    let text = export.text.into_boxed_slice();
    let mut records = rng.garbage_u8(export.room).into_boxed_slice();
    let mut answer = Box::new([0; doarpezwim::IMPORT_CELLS]);
    // SAFETY: every pointer comes with the length of its own block.
    unsafe { ffi::doarpezwim_import(text.as_ptr(), text.len(), records.as_mut_ptr(), records.len(), &mut *answer) }
}

fn check(filing: Filing) -> u32 {
    let (file, rows) = (filing.file.into_boxed_slice(), filing.rows.into_boxed_slice());
    let (totals, mut answer) = (Box::new(filing.totals), Box::new([0; doarpezwim::CHECK_CELLS]));
    // SAFETY: every pointer comes with the length of its own block.
    unsafe { ffi::doarpezwim_check(file.as_ptr(), file.len(), rows.as_ptr(), rows.len(), &*totals, &mut *answer) }
}

/// The reference's account, by which filings are made.
fn plain_account(file: &[u8], rows: &mut [u64]) -> [u64; 8] {
    reference::account(file, rows, &mut [0; reference::HOURS], &mut [0; reference::HOURS]).cells()
}

fn main() {
    let mut rng = Rng::new(SEED);
    let mut numbers = [0; 19];
    let sizes = [(Size::Short, 900), (Size::Medium, 40), (Size::Long, 30), (Size::ManyLines, 10), (Size::Full, 2)];
    for (size, count) in sizes {
        for _ in 0..count {
            let case = Case::of_size(size, &mut rng);
            numbers[account(case, &mut rng) as usize] += 1;
        }
    }
    println!("account calls by number, stacks alone: {numbers:?}");
    let mut numbers = [0; 19];
    for _ in 0..900 {
        let case = Case::with_outfalls(&mut rng);
        numbers[account(case, &mut rng) as usize] += 1;
    }
    println!("account calls by number, with outfalls: {numbers:?}");
    let mut numbers = [0; 18];
    for _ in 0..2_000 {
        numbers[panel(Step::generate(&mut rng)) as usize] += 1;
    }
    println!("panel calls by number: {numbers:?}");
    let found = (0..2_000).filter(|_| survey(Lookup::generate(&mut rng)) == 14).count();
    println!("survey calls: 2000, of which {found} found a block");
    let mut numbers = [0; 22];
    for _ in 0..2_000 {
        let export = Export::generate(&mut rng);
        numbers[import(export, &mut rng) as usize] += 1;
    }
    println!("import calls by number: {numbers:?}");
    let mut outcomes = [0; 3];
    for _ in 0..2_000 {
        outcomes[check(Filing::generate(plain_account, u64::MAX, &mut rng)) as usize] += 1;
    }
    println!("check calls by outcome: {outcomes:?}");
}
