//! What a panic says of a column that is not there, and where it says that it was. One test alone: the hook is the whole process's.
use std::panic::{self, catch_unwind, AssertUnwindSafe};
use std::sync::Mutex;
use vejupa::{decode_row_into, Buffers, Columns, Row};

static SAID: Mutex<Option<(String, String, u32)>> = Mutex::new(None);

/// The message, file and line of the panic that a call ends in.
fn said<T>(call: impl FnOnce() -> T) -> (String, String, u32) {
    assert!(catch_unwind(AssertUnwindSafe(call)).is_err());
    SAID.lock().unwrap().take().unwrap()
}

fn of_three_columns(check: impl FnOnce(Row)) {
    let integers = [0x05, 0x70, 0x02, 0x00, 0x04].repeat(3);
    let mut buffers = Buffers::new();
    let columns = Columns::parse_whole(&integers).unwrap();
    check(decode_row_into(&[0; 12], &columns, 2, &mut buffers).unwrap());
}

#[test]
fn columns_that_are_not_there() {
    panic::set_hook(Box::new(|info| {
        let message = match info.payload().downcast_ref::<String>() {
            Some(message) => message.clone(),
            None => String::new(),
        };
        let place = info.location().unwrap();
        *SAID.lock().unwrap() = Some((message, place.file().into(), place.line()));
    }));
    let mut answers = Vec::new();
    of_three_columns(|row| {
        for k in [3, 9, usize::MAX, usize::MAX / 3 + 1] {
            answers.push((k, 3, line!(), said(|| row.value(k))));
            answers.push((k, 3, line!(), said(|| row.value_bytes(k))));
            answers.push((k, 3, line!(), said(|| row.is_external(k))));
        }
    });
    let mut buffers = Buffers::new();
    let none = decode_row_into(&[], &Columns::default(), 2, &mut buffers).unwrap();
    answers.push((0, 0, line!(), said(|| none.value(0))));
    drop(panic::take_hook());

    for (k, count, line, (message, file, at)) in answers {
        let expected = format!("column {k} of a row of {count} columns, which count from 0");
        assert_eq!(message, expected);
        assert_eq!((file.as_str(), at), (file!(), line));
    }
}
