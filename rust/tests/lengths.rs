//! The lengths to lend: the index's beside a rule of its own, and what happens with one less.

use yokefennel::{Entry, Lengths, Lent, Mark, Refusal, Settings, Store};

/// Whether leaf m, 1 or more, brings an inner node with it.
fn brings_a_node(order: usize, leaf: usize) -> bool {
    let mut q = leaf;
    while q % order == 0 {
        q /= order;
    }
    q % order == 1
}

fn words(order: usize, pages: usize) -> usize {
    let leaves = pages.div_ceil(order - 1);
    let nodes = leaves + (1..leaves).filter(|&leaf| brings_a_node(order, leaf)).count();
    nodes * (order - 1)
}

#[test]
fn index_by_the_rule() {
    for order in 2..=64u16 {
        for (page, records) in [(2, 0), (2, 1), (3, 400), (2, 5_000), (64, 65_536), (2, 65_536)] {
            let need = Settings { order, page, limit: 1 }.lengths(records, 0).unwrap();
            let pages = records.div_ceil(page.into()) as usize;
            assert_eq!(need.index, words(order.into(), pages), "order {order}, {pages} pages");
        }
    }
}

#[test]
fn all_lengths() {
    let settings = Settings { order: 3, page: 2, limit: 4 };
    let need = Lengths { log: 144, index: 6, table: 32, entries: 4, areas: 128, out: 96, work: 64 };
    assert_eq!(settings.lengths(5, 4), Ok(need));
}

#[test]
fn refused() {
    let settings = Settings { order: 3, page: 2, limit: 4 };
    assert_eq!(Settings { order: 1, ..settings }.lengths(5, 2), Err(Refusal::Order));
    assert_eq!(Settings { page: 65, ..settings }.lengths(5, 2), Err(Refusal::PageSize));
    assert_eq!(Settings { limit: 0, ..settings }.lengths(5, 2), Err(Refusal::RowLimit));
    assert_eq!(settings.lengths(65_537, 2), Err(Refusal::Memory));
    assert_eq!(settings.lengths(5, 17), Err(Refusal::CatalogueFull));
}

/// As many records and files as were asked for; with one less of a region, the last of them is refused.
#[test]
fn enough_and_no_less() {
    for (order, page) in [(2, 2), (3, 2), (4, 3), (8, 2), (64, 2)] {
        let settings = Settings { order, page, limit: 1_024 };
        for records in [1, 2, 7, 40, 333] {
            let need = settings.lengths(records, 1).unwrap();
            assert_eq!(fill(settings, records, need), Ok(()), "order {order}, {records} records");
            for (less, refusal) in one_less(need) {
                assert_eq!(fill(settings, records, less), Err(refusal), "order {order}, {records} records");
            }
        }
    }
}

fn one_less(need: Lengths) -> [(Lengths, Refusal); 7] {
    [
        (Lengths { log: need.log - 1, ..need }, Refusal::LogFull),
        (Lengths { index: need.index - 1, ..need }, Refusal::IndexFull),
        (Lengths { table: need.table - 1, ..need }, Refusal::Memory),
        (Lengths { entries: need.entries - 1, ..need }, Refusal::CatalogueFull),
        (Lengths { areas: need.areas - 1, ..need }, Refusal::CatalogueFull),
        (Lengths { out: need.out - 1, ..need }, Refusal::OutputShort),
        (Lengths { work: need.work - 1, ..need }, Refusal::OutputShort),
    ]
}

fn fill(settings: Settings, records: u32, lengths: Lengths) -> Result<(), Refusal> {
    let (mut log, mut index, mut table) =
        (vec![0; lengths.log], vec![0; lengths.index], vec![0; lengths.table]);
    let (mut entries, mut areas) = (vec![Entry::default(); lengths.entries], vec![0; lengths.areas]);
    let lent = Lent {
        log: &mut log,
        index: &mut index,
        table: &mut table,
        entries: &mut entries,
        areas: &mut areas,
    };
    let mut store = Store::fresh(settings, lent)?;
    (1..=records).try_for_each(|k| store.insert(k.into(), k, k))?;
    store.keep(records.into(), Mark::Permanent)?;
    store.net_change(0, records.into(), &mut vec![0; lengths.out], &mut vec![0; lengths.work]).map(|_| ())
}
