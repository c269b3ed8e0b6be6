//! Both layouts of the product: the same answers, and the same bytes in the whole buffer.

use crate::common::emulated;
use harness::compare::LARGE;
use harness::guarded::Lent;
use harness::product::{allot, allot_in_rows};
use harness::program::tried;
use harness::through::Call;
use second::make;

#[test]
fn rows_and_columns_give_the_same_reports() {
    let through = emulated();
    let mut columns = tried(through.as_deref(), Call::Allot, allot).expect("the call");
    let mut rows = tried(through.as_deref(), Call::AllotInRows, allot_in_rows).expect("the call");
    let mut accepted = 0;
    for index in 0..5_000 {
        let book = make::book(10, index).bytes;
        let mut lent = [LARGE, 40].map(|room| Lent::new(room, index));
        let mut other = lent.clone();
        let answers = columns.call(&book, &mut lent).expect("answers");
        assert_eq!(
            Ok(&answers),
            rows.call(&book, &mut other).as_ref(),
            "book {index}"
        );
        assert!(lent == other, "book {index}");
        accepted += answers.iter().filter(|answer| answer.number == 0).count();
    }
    assert!(accepted > 2_000, "{accepted} accepted");
}
