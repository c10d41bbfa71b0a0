//! What include/ratlinery.h says of pointers: a list of length 0 may be NULL, messages and outputs may start at any byte.

use ratlinery_reference::face::Table;
use ratlinery_reference::{Message, face::Face};
use ratlinery_sys as c;
use ratlinery_trials::library::Library;
use std::ptr::{null, null_mut};

/// An empty struct, whose value list is empty.
const EMPTY_STRUCT: [u32; 4] = [7, 0, 0, 0];

#[test]
fn every_list_of_length_0_may_be_null() {
    let rows = EMPTY_STRUCT.as_ptr();
    let mut answer = [9; 3];
    let word = answer.as_mut_ptr();
    // SAFETY: each pointer is null with length 0, or comes from a list with its length.
    unsafe {
        assert_eq!(c::ratlinery_layout(null(), 0, null(), 0, null(), 0, 0, null_mut(), 0), 1);
        assert_eq!(c::ratlinery_layout(null(), 0, null(), 0, null(), 0, 0, word, 1), 1);
        assert_eq!(answer, [256, 9, 9]);
        assert_eq!(c::ratlinery_check(rows, 4, null(), 0, null(), 0, 0, null(), 0, 0, word, 1), 6);
        let read = |answer, room| {
            c::ratlinery_read(
                rows,
                4,
                null(),
                0,
                null(),
                0,
                0,
                null(),
                0,
                0,
                null_mut(),
                0,
                null_mut(),
                0,
                answer,
                room,
            )
        };
        assert_eq!(read(word, 3), 6);
        assert_eq!(read(null_mut(), 0), 6);
        let message = [0; 8].as_ptr();
        assert_eq!(
            c::ratlinery_read_values(rows, 4, null(), 0, null(), 0, 0, message, 8, 0, null_mut(), 0, word, 2),
            0
        );
        assert_eq!(
            c::ratlinery_read_objects(
                rows,
                4,
                null(),
                0,
                null(),
                0,
                0,
                message,
                8,
                0,
                null_mut(),
                0,
                word,
                2
            ),
            22
        );
        assert_eq!(answer, [4, 0, 0]);
        assert_eq!(
            c::ratlinery_write(rows, 4, null(), 0, null(), 0, 0, null(), 0, null_mut(), 0, word, 3),
            22
        );
        assert_eq!(answer, [8, 0, 0]);
        assert_eq!(c::ratlinery_header_read(null(), 0, word, 3), 6);
        assert_eq!(c::ratlinery_header_write(1, 0, 0, 0, 1, null_mut(), 0, word, 2), 22);
        assert_eq!(answer, [16, 0, 0]);
        assert_eq!(c::ratlinery_epitaph_write(0, 0, 0, -1, null_mut(), 0, word, 2), 22);
        assert_eq!(answer, [24, 0, 0]);
        assert_eq!(c::ratlinery_utf8(null(), 0, word, 1), 0);
        assert_eq!(answer, [0, 0, 0]);
        assert_eq!(c::ratlinery_utf8([0xff].as_ptr(), 1, null_mut(), 0), 13);
        #[cfg(feature = "prepared")]
        {
            assert_eq!(c::ratlinery_prepare(rows, 4, null(), 0, null(), 0, null_mut(), 0, word, 1), 22);
            assert_eq!(answer, [515, 0, 0]);
            assert_eq!(c::ratlinery_append(rows, 4, null(), 0, null(), 0, null_mut(), 0, word, 1), 34);
            assert_eq!(answer, [0, 0, 0]);
            let go_back = |to, answer, room| {
                c::ratlinery_go_back(rows, 4, null(), 0, null(), 0, to, 0, 0, null_mut(), 0, answer, room)
            };
            assert_eq!(go_back(0, word, 1), 1);
            assert_eq!(answer, [256, 0, 0]);
            assert_eq!(go_back(1, word, 1), 34);
            assert_eq!(go_back(1, null_mut(), 0), 34);
            assert_eq!(
                c::ratlinery_check_prepared(
                    rows,
                    4,
                    null(),
                    0,
                    null(),
                    0,
                    null(),
                    0,
                    0,
                    message,
                    8,
                    0,
                    word,
                    1
                ),
                34
            );
            assert_eq!(answer, [0, 0, 0]);
        }
    }
}

#[test]
fn a_message_and_an_output_may_start_at_any_byte() {
    // a struct of a number of eight bytes and a vector of numbers of four bytes
    let rows = [2, 8, 0, 0, 2, 4, 0, 0, 5, 1, 9, 0, 7, 0, 2, 0];
    let table = Table { rows: &rows, members: &[1, 0, 2, 2], entries: &[] };
    let list = [1 << 60, 4, 5, 6, 7];
    for shift in 0..16 {
        let mut buffer = [0xa5; 80];
        let mut answer = [0; 3];
        assert_eq!(Library.write(table, 3, &list, &mut buffer[shift..shift + 40], &mut answer), 0);
        assert_eq!(answer, [0, 40, 0]);
        assert!(buffer[..shift].iter().chain(&buffer[shift + 40..]).all(|&byte| byte == 0xa5));
        let message = Message { bytes: &buffer[shift..shift + 40], handles: 0 };
        let mut values = [0; 5];
        assert_eq!(Library.read_values(table, 3, message, &mut values, &mut answer), 0);
        assert_eq!(values, list);
    }
}
