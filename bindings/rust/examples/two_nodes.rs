//! The first run of document 01: two nodes move the same file while neither hears the other, tell
//! each other all that they have to tell, and agree on its place. Prints the tree of each node.

use rumbezalo::{Clock, Id, Kind, Name, Node, Nodes, Refusal, Table};

/// Delivers what is due, both ways, until nothing is.
fn quiet(one: &mut Table, two: &mut Table, now: Clock) -> Result<(), Refusal> {
    while one.pending()? + two.pending()? > 0 {
        tell(one, two, now)?;
        tell(two, one, now)?;
    }
    Ok(())
}

/// Delivers what one node has to tell the other. Here no message is lost.
fn tell(from: &mut Table, to: &mut Table, now: Clock) -> Result<(), Refusal> {
    for (id, node) in from.due() {
        let message = from.push(id, node)?;
        let back = to.receive(now, &message)?;
        from.acknowledged(&back)?;
    }
    Ok(())
}

/// Prints what stands in a directory, and in those below it.
fn show(table: &Table, directory: Id, path: &str) -> Result<(), Refusal> {
    for entry in table.list(directory)? {
        let path = format!("{path}/{}", entry.name);
        println!("  {path} since {}", entry.stamp);
        match table.replica(entry.child) {
            Some(child) if child.kind == Kind::Directory => show(table, child.id, &path)?,
            _ => (),
        }
    }
    Ok(())
}

fn run() -> Result<(), Refusal> {
    let (first, second) = (Node::try_from(1)?, Node::try_from(2)?);
    let both = Nodes::from([first, second]);
    let mut one = Table::start(first, 2)?;
    let mut two = Table::start(second, 2)?;
    let name = |text: &str| Name::try_from(text);

    let alice = one.create(1.into(), Id::ROOT, Kind::Directory, name("alice")?, both)?;
    let file = one.create(2.into(), Id::ROOT, Kind::File, name("foo")?, both)?;
    quiet(&mut one, &mut two, 2.into())?;
    let bob = two.create(3.into(), Id::ROOT, Kind::Directory, name("bob")?, both)?;
    quiet(&mut one, &mut two, 3.into())?;
    one.rename(12.into(), file, alice, name("foo1")?)?;
    two.rename(12.into(), file, bob, name("foo2")?)?;
    quiet(&mut one, &mut two, 13.into())?;

    for table in [&one, &two] {
        println!("node {}:", table.node());
        show(table, Id::ROOT, "")?;
        let held = table.replica(file).expect("both hold it");
        let place = held.place.expect("only the root has none");
        assert_eq!((place.directory, place.name), (bob, name("foo2")?));
        assert_eq!(held.stamp.number(), 3074);
    }
    Ok(())
}

/// Runs it, and says in words what was refused, if something was.
pub fn main() {
    if let Err(refusal) = run() {
        eprintln!("refused: {refusal}");
        std::process::exit(1);
    }
}
