//! Times the calls of the library beside those of the Rust program, on the same tables and messages,
//! in one run, and prints both times and their ratio. A time says nothing by itself: only the ratio
//! does.

#[path = "../../bindings/rust/tests/common/asked.rs"]
mod asked;

use asked::by_library;
use rumbezalo_model::asked::Call;
use rumbezalo_model::calls::{self, Answer, Service};
use rumbezalo_model::records::Kind;
use rumbezalo_model::table::{judge, Replica, Table};
use rumbezalo_model::variant::Variant;
use std::hint::black_box;
use std::time::Instant;

/// The room that every call is given to write to: the longest push fits.
const ROOM: usize = 2048;

const RUST: Service = Service {
    variant: Variant::Right,
};

/// What a call works on.
struct Bed {
    table: Vec<u8>,
    out: Vec<u8>,
}

impl Bed {
    fn with(table: &[u8]) -> Bed {
        Bed {
            table: table.to_vec(),
            out: vec![0xA5; ROOM],
        }
    }
}

/// One call on one table.
struct Case {
    label: &'static str,
    table: Vec<u8>,
    call: Call,
}

fn case(label: &'static str, table: &[u8], call: Call) -> Case {
    Case {
        label,
        table: table.to_vec(),
        call,
    }
}

// ---- the tables

fn replicas(table: &[u8]) -> Vec<Replica> {
    judge(table).expect("a sound table").replicas
}

/// How many entries there are in a directory, or in all.
fn entries(table: &[u8], directory: Option<u32>) -> usize {
    let table = judge(table).expect("a sound table");
    let counted = |id: u32| directory.is_none() || directory == Some(id);
    table
        .entries
        .iter()
        .filter(|slot| counted(slot.directory))
        .count()
}

/// A call that must be done, and its value.
fn done(what: &str, answer: Answer) -> u32 {
    assert_eq!(answer.number, 0, "{what}");
    answer.value
}

/// A table with so many replicas and entries: a chain of fifteen directories below the root, the
/// deepest with 32 entries, and files, most of them in the deepest directory, at depth 16. The others
/// are moved from directory to directory. The last file has been at "moved" in the root and in the
/// deepest directory, so that to move it there needs no slot.
fn filled(replicas: usize, entries_in_all: usize) -> Vec<u8> {
    let mut table = Table::fresh(1, 8).bytes();
    let make = |table: &mut Vec<u8>, directory: u32, kind: u64, name: String| {
        let answer = calls::create(table, 1, directory.into(), kind, name.as_bytes(), 0xFF);
        done("create", answer)
    };
    let mut directories = vec![0];
    for depth in 1..16 {
        let above = directories[depth - 1];
        directories.push(make(&mut table, above, 2, format!("d{depth}")));
    }
    let deepest = directories[15];
    let count = replicas - directories.len();
    let staying = (count * 2 / 3).min(31);
    let mut files = Vec::new();
    for file in 0..count {
        let into = if file < staying {
            deepest
        } else {
            directories[file % 15]
        };
        files.push(u64::from(make(&mut table, into, 1, format!("f{file}"))));
    }
    let last = files[count - 1];
    done(
        "move",
        calls::rename(&mut table, 1, last, deepest.into(), b"moved"),
    );
    done("move", calls::rename(&mut table, 1, last, 0, b"moved"));
    let mut step = 0;
    while entries(&table, Some(deepest)) < 32 {
        let name = format!("s{step}");
        let file = files[step % staying];
        done(
            "move",
            calls::rename(&mut table, 1, file, deepest.into(), name.as_bytes()),
        );
        step += 1;
    }
    let moving = &files[staying..];
    while entries(&table, None) < entries_in_all {
        let file = moving[step % moving.len()];
        let into = directories[(step * 7 + step / moving.len()) % 15];
        let name = format!("m{step}");
        // Refused where the directory is full.
        let _ = calls::rename(&mut table, 1, file, into.into(), name.as_bytes());
        step += 1;
    }
    table
}

/// The deepest directory of a table that was filled.
fn deepest(table: &[u8]) -> u64 {
    let chain = replicas(table).into_iter().map(|replica| replica.head);
    let found = chain
        .filter(|head| head.kind == Kind::Directory)
        .max_by_key(|head| head.depth);
    found.expect("the root").id.into()
}

/// The file that was made last; in a fresh table, the root.
fn last(table: &[u8]) -> u64 {
    replicas(table).pop().expect("the root").head.id.into()
}

/// What a node writes to node 2; nothing, if nothing is pending.
fn pushed(table: &[u8], id: u64) -> Vec<u8> {
    let mut push = vec![0; ROOM];
    let answer = calls::push(table, id, 2, &mut push);
    push.truncate(answer.value as usize);
    push
}

/// Lets node 2 hear all that node 1 has to tell it: its table then.
fn told(table: &mut [u8]) -> Vec<u8> {
    let mut other = Table::fresh(2, 8).bytes();
    for replica in replicas(table) {
        let (push, mut back) = (pushed(table, replica.head.id.into()), vec![0; 16]);
        if !push.is_empty() {
            done("receive", calls::receive(&mut other, 1, &push, &mut back));
            done("acknowledged", calls::acknowledged(table, &back));
        }
    }
    other
}

/// The table with every file in a directory unlinked, or with every file.
fn emptied(table: &[u8], directory: Option<u64>) -> Vec<u8> {
    let mut table = table.to_vec();
    for replica in replicas(&table) {
        let head = replica.head;
        let counted = directory.is_none() || directory == Some(head.place.directory.into());
        if head.live && head.kind == Kind::File && counted {
            done("unlink", calls::unlink(&mut table, 5, head.id.into()));
        }
    }
    table
}

/// The table with every file unlinked and every directory removed.
fn bare(table: &[u8]) -> Vec<u8> {
    let mut table = emptied(table, None);
    for replica in replicas(&table).iter().rev() {
        if replica.head.kind == Kind::Directory && replica.head.id != 0 {
            done(
                "remove",
                calls::remove(&mut table, 5, replica.head.id.into()),
            );
        }
    }
    table
}

/// How many directories live.
fn living(table: &[u8]) -> usize {
    let live = |replica: &Replica| replica.head.live && replica.head.kind == Kind::Directory;
    replicas(table)
        .iter()
        .filter(|replica| live(replica))
        .count()
}

// ---- the cases

/// Each call on node 1's table, and receive on node 2's, which has heard all but the last move of a
/// file.
fn cases(before: &[u8], other: &[u8]) -> Vec<Case> {
    let id = last(before);
    let mut table = before.to_vec();
    let _ = calls::rename(&mut table, 5, id, 0, b"moved");
    let (push, mut ack) = (pushed(&table, id), vec![0; 16]);
    let _ = calls::receive(&mut other.to_vec(), 5, &push, &mut ack);
    let (now, room) = (9, ROOM);
    let named = |name: &[u8]| name.to_vec();
    vec![
        case("start", &table, Call::Start { node: 1, n: 8 }),
        case("pending", &table, Call::Pending),
        case("list", &table, Call::List { id: 0, room }),
        case(
            "create",
            &table,
            Call::Create {
                now,
                directory: 0,
                kind: 1,
                name: named(b"new"),
                set: 0xFF,
            },
        ),
        case("unlink", &table, Call::Unlink { now, id }),
        case(
            "rename",
            before,
            Call::Rename {
                now,
                id,
                directory: 0,
                name: named(b"moved"),
            },
        ),
        case(
            "remove",
            &table,
            Call::Remove {
                now,
                id: 16_777_217,
            },
        ),
        case("spread", &table, Call::Spread { id: 0, set: 0xFF }),
        case("push", &table, Call::Push { id, node: 2, room }),
        case(
            "receive",
            other,
            Call::Receive {
                now,
                message: push,
                room,
            },
        ),
        case("acknowledged", &table, Call::Acknowledged { message: ack }),
    ]
}

/// An accepted remove, and a receive that brings fifteen directories back: node 2 has removed them
/// all, and node 1, which has not heard of it, moves a file into the deepest.
fn directory_cases(before: &[u8], other: &[u8]) -> Vec<Case> {
    let (id, now, room) = (deepest(before), 9, ROOM);
    let empty = emptied(before, Some(id));
    let mut moved = before.to_vec();
    done(
        "move",
        calls::rename(&mut moved, 1000, last(before), id, b"moved"),
    );
    let message = pushed(&moved, last(before));
    let gone = bare(other);
    let mut back = gone.clone();
    done(
        "receive",
        calls::receive(&mut back, now, &message, &mut [0; 16]),
    );
    assert_eq!((living(&gone), living(&back)), (1, 16), "directories");
    vec![
        case("remove, done", &empty, Call::Remove { now, id }),
        case("receive, back", &gone, Call::Receive { now, message, room }),
    ]
}

/// A receive of a directory at depth 15 with 32 entries, the longest push, after all files in it were
/// unlinked.
fn longest_case(before: &[u8], other: &[u8]) -> Case {
    let id = deepest(before);
    let message = pushed(&emptied(before, Some(id)), id);
    assert_eq!(message.len(), 1640, "the longest push");
    case(
        "receive, 32",
        other,
        Call::Receive {
            now: 9,
            message,
            room: ROOM,
        },
    )
}

/// Fresh tables; half full ones; and full ones: 64 replicas, 256 entries.
fn stages() -> Vec<(&'static str, Vec<Case>)> {
    let [fresh, node_2] = [1, 2].map(|node| Table::fresh(node, 8).bytes());
    let mut first = cases(&fresh, &node_2);
    first.push(longest_case(&filled(64, 256), &node_2));
    let mut list = vec![("fresh", first)];
    for (name, count, most) in [("half full", 32, 128), ("full", 64, 256)] {
        let mut before = filled(count, most);
        let other = told(&mut before);
        for table in [&before, &other] {
            assert_eq!((replicas(table).len(), entries(table, None)), (count, most));
        }
        let mut some = cases(&before, &other);
        some.extend(directory_cases(&before, &other));
        some.push(longest_case(&before, &other));
        list.push((name, some));
    }
    list
}

// ---- timing

/// The least of several times for so many calls, each on a new copy of the table, in nanoseconds a
/// call.
fn timed(table: &[u8], mut call: impl FnMut(&mut Bed)) -> f64 {
    let mut bed = Bed::with(table);
    let mut best = f64::MAX;
    for _ in 0..7 {
        let start = Instant::now();
        for _ in 0..200 {
            bed.table.copy_from_slice(black_box(table));
            call(&mut bed);
        }
        best = best.min(start.elapsed().as_nanos() as f64 / 200.0);
    }
    best
}

/// Both must answer the same, and leave the same bytes.
fn compare(name: &str, case: &Case) -> u32 {
    let (mut a, mut b) = (Bed::with(&case.table), Bed::with(&case.table));
    let ours = by_library(&case.call, &mut a.table, &mut a.out);
    let theirs = case.call.make(&RUST, &mut b.table, &mut b.out);
    let what = format!("{} on the {name} table", case.label);
    assert_eq!(
        (ours.number, ours.value),
        (theirs.number, theirs.value),
        "{what}"
    );
    assert_eq!((a.table, a.out), (b.table, b.out), "{what}");
    theirs.number
}

fn main() {
    println!("call           table       answer  library ns    Rust ns   ratio");
    for (name, cases) in stages() {
        for case in cases {
            let number = compare(name, &case);
            let ours = timed(&case.table, |bed| {
                black_box(by_library(
                    black_box(&case.call),
                    &mut bed.table,
                    &mut bed.out,
                ));
            });
            let theirs = timed(&case.table, |bed| {
                black_box(black_box(&case.call).make(&RUST, &mut bed.table, &mut bed.out));
            });
            let ratio = ours / theirs;
            println!(
                "{:<14} {name:<10} {number:>7} {ours:>11.0} {theirs:>10.0} {ratio:>7.2}",
                case.label
            );
        }
    }
}
