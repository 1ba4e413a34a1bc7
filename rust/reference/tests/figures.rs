//! The reference against the worked figures of document 01, request A2's case and the outfall for request A3.

use inputs::Outcome;

#[test]
fn states_the_worked_figures() {
    for figure in inputs::figures::figures() {
        let (mut rows, mut concentration, mut flow) = (vec![7; 7], vec![7; 2_208], vec![7; 2_208]);
        let answer = reference::account(&figure.file, &mut rows, &mut concentration, &mut flow).cells();
        figure.check(&Outcome { answer, rows, concentration, flow });
    }
}

#[test]
fn prints_the_example() {
    assert_eq!(reference::printed(&inputs::figures::example()), "1 2 1 126500 4 1 3\ntotal 0 126500 0 0 0\n");
}
