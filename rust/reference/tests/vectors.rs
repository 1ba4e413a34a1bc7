//! The reference against the vectors: what the program prints for each file.

fn text(file: &[u8]) -> String {
    let printed = reference::printed(file);
    if file.len() <= inputs::vectors::PROGRAM_MOST {
        return printed;
    }
    let mut rows = [0; 7 * 48];
    let answer = reference::account(file, &mut rows, &mut [0; reference::HOURS], &mut [0; reference::HOURS]);
    printed + &reference::text(&answer, &rows)
}

#[test]
fn prints_what_the_vectors_say() {
    let vectors = inputs::vectors::load();
    assert!(inputs::vectors::check(&vectors, vectors.files.iter().map(|file| text(file))) >= 1_099);
}
