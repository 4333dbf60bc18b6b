//! The tuned version of the benchmarks gives what the model gives, wherever the model accepts: also where rows are gone around.
use harness::generator;
use harness::model::{self, ACCEPTED, Rule};
use harness::plain::Random;
use harness::table::Table;
use harness::tuned::{self, Product};

#[test]
fn the_tuned_version_is_the_model() {
    let mut random = Random(0xA0761D6478BD642F);
    let random: Vec<_> = (0..3_000).map(|_| generator::case(&mut random)).collect();
    let cases = random.into_iter().chain(generator::boundaries().into_iter().map(|(_, case)| case));
    let mut accepted = 0;
    for case in cases.filter(|case| case.tables[0].main.len() <= 10_000) {
        // It has rule 1 alone.
        let t = Table { rule: Rule::One, ..case.tables[0].clone() };
        let mut trace = vec![0; if t.fits() { 4 * t.height as usize * (t.lookup_count() + 1) } else { 0 }];
        let (answer, terminal) = model::generate(&t, &case.challenges, &mut trace);
        if answer == ACCEPTED && terminal.is_some() {
            accepted += 1;
            for product in [Product::Denominators, Product::Norms] {
                assert_eq!(tuned::generate(&t, &case.challenges, product), (trace.clone(), terminal), "{case}");
            }
        }
    }
    assert!(2_000 < accepted, "{accepted}");
}
