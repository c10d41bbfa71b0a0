//! The deepest message that the rules accept, on a thread of 2 MiB: 33 objects, each boxed in the one before it and each
//! 255 structs deep in line.

#[cfg(feature = "prepared")]
use ratlinery::{Place, Prepared};
use ratlinery::{Reading, TypeTable, row};

const STACK: usize = 2 << 20;
const ROOT: u32 = 255;

/// A box of the last row, and structs, each with the row before it as its one member.
fn rows() -> Vec<[u32; 4]> {
    std::iter::once(row::boxed(ROOT)).chain((0..ROOT).map(|member| row::structure(member, 1))).collect()
}

fn members() -> Vec<[u32; 2]> {
    (0..ROOT).map(|row| [1, row]).collect()
}

/// Every box is present but the last one.
fn message() -> Vec<u8> {
    let mut message = vec![0xff; 33 * 8];
    message[32 * 8..].fill(0);
    message
}

fn values() -> Vec<u64> {
    let mut values = vec![1; 33];
    values[32] = 0;
    values
}

fn on_small_stack(run: impl FnOnce(TypeTable) + Send + 'static) {
    let thread = std::thread::Builder::new().stack_size(STACK).spawn(|| {
        let (rows, members) = (rows(), members());
        run(TypeTable::new(&rows, &members));
    });
    thread.expect("a thread").join().expect("the thread's work");
}

#[test]
fn deepest_message_is_checked() {
    on_small_stack(|table| {
        table.check(ROOT, &message(), 0).unwrap();
        // one box more
        let mut deeper = message();
        deeper[32 * 8..].fill(0xff);
        deeper.extend([0; 8]);
        assert_eq!(
            table.check(ROOT, &deeper, 0).unwrap_err().to_string(),
            "refusal 5: the message is more than 32 deep (byte 256)"
        );
    });
}

/// Row 0 boxes the last one, so that none can be taken off; nor is there room for one more.
#[cfg(feature = "prepared")]
#[test]
fn deepest_message_is_checked_with_a_state() {
    on_small_stack(|table| {
        let mut prepared = Prepared::new(table).unwrap();
        prepared.check(ROOT, &message(), 0).unwrap();
        assert_eq!(prepared.go_back(255, 254, 0).unwrap_err().place, Place::Row(0));
        assert_eq!(prepared.append(&[row::BOOL], &[], &[]).unwrap_err().place, Place::Row(256));
        prepared.append(&[], &[[1, 255]], &[7]).unwrap();
        prepared.check(ROOT, &message(), 0).unwrap();
        prepared.go_back(256, 255, 0).unwrap();
        assert_eq!(prepared.table(), table);
        prepared.check(ROOT, &message(), 0).unwrap();
    });
}

#[test]
fn deepest_message_is_read() {
    on_small_stack(|table| {
        let Reading { values: given, objects } = table.read(ROOT, &message(), 0).unwrap();
        assert_eq!(given, values());
        assert_eq!(objects.len(), 33);
        assert_eq!(table.read_values(ROOT, &message(), 0).unwrap(), given);
        assert_eq!(table.read_objects(ROOT, &message(), 0).unwrap(), objects);
    });
}

#[test]
fn deepest_message_is_written() {
    on_small_stack(|table| {
        assert_eq!(table.write(ROOT, &values()).unwrap().bytes, message());
        let mut deeper = values();
        deeper.insert(0, 1);
        assert_eq!(table.write(ROOT, &deeper).unwrap_err().number(), 5);
    });
}

/// The tree is made, walked and dropped without recursion.
#[test]
fn deepest_value_is_a_tree() {
    on_small_stack(|table| {
        let values = values();
        let tree = table.tree(ROOT, &values).unwrap();
        assert_eq!(tree.to_string().lines().count(), 33 * 256);
    });
}
