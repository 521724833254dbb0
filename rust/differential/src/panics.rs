//! A panic as a mismatch: caught with its text, so that it is told with its code and seed.

use std::cell::RefCell;
use std::panic::{AssertUnwindSafe, catch_unwind, set_hook, take_hook};
use std::sync::Once;

use crate::mismatch::Mismatch;

thread_local! {
    /// Within `caught`: the text of this thread's last panic.
    static TEXT: RefCell<Option<String>> = const { RefCell::new(None) };
}

/// What the run gives; a panic is a mismatch of this kind, and prints nothing by itself.
pub fn caught<T>(kind: &'static str, run: impl FnOnce() -> T) -> Result<T, Mismatch> {
    keep_texts();
    let around = TEXT.replace(Some(String::new()));
    let result = catch_unwind(AssertUnwindSafe(run));
    let text = TEXT.replace(around);
    result.map_err(|_| Mismatch {
        kind,
        sentence: text.unwrap_or_default(),
    })
}

/// From now on a panic within `caught` leaves its text there; any other prints as before.
fn keep_texts() {
    static KEPT: Once = Once::new();
    KEPT.call_once(|| {
        let before = take_hook();
        set_hook(Box::new(move |panic| {
            TEXT.with_borrow_mut(|text| match text {
                Some(text) => *text = panic.to_string().replace('\n', " "),
                None => before(panic),
            });
        }));
    });
}

#[cfg(test)]
mod tests {
    use super::caught;

    #[test]
    fn the_text_says_where_and_why() {
        assert_eq!(caught("panic", || 7), Ok(7));
        let found = caught("panic", || panic!("no {}", "way")).expect_err("it panics");
        assert_eq!(found.kind, "panic");
        assert!(found.sentence.starts_with("panicked at "), "{found:?}");
        assert!(found.sentence.contains("panics.rs:"), "{found:?}");
        assert!(found.sentence.ends_with(" no way"), "{found:?}");
    }

    #[test]
    fn the_inner_one_takes_its_panic_and_the_outer_one_the_next() {
        let found = caught("outer", || {
            let inner = caught("inner", || panic!("first")).expect_err("it panics");
            assert!(inner.kind == "inner" && inner.sentence.ends_with(" first"));
            panic!("second");
        });
        let outer = found.expect_err("it panics");
        assert!(outer.kind == "outer" && outer.sentence.ends_with(" second"));
    }
}
