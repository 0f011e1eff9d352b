//! Two editions of a book that share a page: what each has, a name for the first, what a delete would queue, and what is then reclaimed.
//! Run: cargo run --example editions
use sogvect::{log_read, Block, Geometry, Kind, Refusal, Space, Store};

/// Blocks as text, each with its birth.
fn spelled(blocks: impl IntoIterator<Item = Block>) -> String {
    blocks.into_iter().map(|block| block.to_string()).collect::<Vec<_>>().join(" ")
}

fn main() -> Result<(), Refusal> {
    let g = Geometry { arenas: 2, per: 8, pages: 4, records: 8, turn: 16, words: 64 };
    let mut space = Space::new(g);
    let mut store = Store::make(g, space.lend())?;

    let first = store.begin()?;
    store.write(first, 0, Kind::Data)?;
    store.write(first, 1, Kind::Leaf)?;
    let next = store.seal(first)?;
    let other = store.fork(first)?;
    store.write(other, 0, Kind::Data)?;
    store.erase(next, 1)?;
    for (name, record) in [("first", first), ("next", next), ("fork", other)] {
        let pages: Result<Vec<_>, _> = (0..4).map(|page| store.read(record, page)).collect();
        println!("{name} (record {record}) has {}", spelled(pages?.into_iter().flatten()));
    }

    store.name(b"easter", first)?;
    println!("easter is record {}", store.resolve(b"easter")?);

    println!("deleting the forked record: {}", store.delete(first).unwrap_err());
    store.delete(other)?;
    println!("the fork is deleted, and reclaiming frees {}", spelled(store.reclaim(64)?));
    println!("deleting the named record: {}", store.delete(first).unwrap_err());
    store.unname(b"easter")?;
    println!("deleting the first would do this: {:?}", store.estimate(first)?);
    store.delete(first)?;
    println!("free, but for what is queued or waits: {:?}", store.free_list()?);
    println!("reclaiming one block frees {}", spelled(store.reclaim(1)?));
    println!("free, but for what waits: {:?}", store.free_list()?);
    store.barrier()?;
    println!("free after a barrier: {:?}", store.free_list()?);
    println!("the log has {} words", store.compress()?);
    let mut held = vec![0; g.out_len()];
    println!("and holds {:?}", log_read(g, store.log(), &mut held)?);
    Ok(())
}
