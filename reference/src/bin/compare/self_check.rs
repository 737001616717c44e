//! Checks the reference itself, on small plants, by going through all worlds
//! and all selections.

use reference::check::{check, Table};
use reference::figure::{Figure, Peak, Tally};
use reference::order::Order;
use reference::passes::{pair_places, Entry, Holds, Query};
use reference::script::Kind;
use reference::select::{select, Patience};
use reference::table_file::{read_table_file, Node, Room};
use reference::text::Literal;
use reference::variables::Role;
use reference::weights::{read_weights, weight_place};

use crate::plants::{random_plant, Plant, Size};
use crate::random::Random;
use crate::spoil::with_spoiled_circuit;

/// What has been checked.
#[derive(Default)]
pub struct Checked {
    pub plants: usize,
    pub figures: usize,
    pub selects: usize,
}

pub fn self_check(seed: u64, plants: usize) -> Result<Checked, String> {
    let mut checked = Checked::default();
    for case in 0..plants {
        let mut random = Random::of_case(seed, "self", case);
        let size = Size::small(&mut random);
        let kind = random.one_of(&[Kind::Tally, Kind::Peak]);
        let mut plant = random_plant(&mut random, size, kind);
        let spoiled = random.percent(40);
        if spoiled {
            plant = with_spoiled_circuit(&mut random, &plant);
        }
        let agreed = match kind {
            Kind::Tally => check_plant::<Tally>(&mut random, &plant, &mut checked),
            Kind::Peak => check_plant::<Peak>(&mut random, &plant, &mut checked),
        };
        match agreed {
            Ok(()) => {}
            Err(Wrong::Refused) if spoiled => {}
            Err(wrong) => {
                let text = String::from_utf8_lossy(&plant.text()).into_owned();
                return Err(format!("self check {case}, seed {seed}: {wrong:?}\n{text}"));
            }
        }
    }
    Ok(checked)
}

#[derive(Debug)]
enum Wrong {
    Refused,
    Figure,
    Bound,
    PlainBound,
    HeldBound,
    Select,
    Openings,
}

fn agree(is_so: bool, wrong: Wrong) -> Result<(), Wrong> {
    if is_so {
        Ok(())
    } else {
        Err(wrong)
    }
}

fn check_plant<F: Figure>(
    random: &mut Random,
    plant: &Plant,
    checked: &mut Checked,
) -> Result<(), Wrong> {
    let text = plant.text();
    let file = read_table_file(&text, Room::FULL).map_err(|_| Wrong::Refused)?;
    let weight_text = &text[file.weights_begin..];
    let table = check(file).map_err(|_| Wrong::Refused)?;
    let mut sheet = vec![F::ZERO; 2 * table.variables().len()];
    read_weights(&table, &mut sheet, weight_text).map_err(|_| Wrong::Refused)?;
    checked.plants += 1;
    let mut work = vec![F::ZERO; pair_places(&table)];
    for _ in 0..3 {
        let holds = random_holds(random, &table);
        check_under(&table, &sheet, &holds, &mut work, checked)?;
    }
    Ok(())
}

fn query_of<'a, F>(table: &'a Table, sheet: &'a [F], holds: &'a Holds) -> Query<'a, F> {
    Query {
        table,
        sheet,
        holds,
    }
}

fn random_holds(random: &mut Random, table: &Table) -> Holds {
    let mut holds = Holds::new();
    let held = random.one_of(&[0, 30, 80]);
    for &option in table.options() {
        if random.percent(held) {
            holds.set(option, Entry::held(random.percent(50)));
        }
    }
    holds
}

fn check_under<F: Figure>(
    table: &Table,
    sheet: &[F],
    holds: &Holds,
    work: &mut [F],
    checked: &mut Checked,
) -> Result<(), Wrong> {
    let query = query_of(table, sheet, holds);
    let bound = query.bound(work);
    let plain_bound = query.plain_bound(work);
    agree(!bound.ranks_above(plain_bound), Wrong::PlainBound)?;
    let mut best: Option<(Holds, F)> = None;
    for selection in selections(table, holds) {
        let held = query_of(table, sheet, &selection);
        let figure = held.figure(work);
        agree(
            figure == brute_figure(table, sheet, &selection),
            Wrong::Figure,
        )?;
        agree(!figure.ranks_above(bound), Wrong::Bound)?;
        agree(held.bound(work) == figure, Wrong::HeldBound)?;
        checked.figures += 1;
        if figure.ranks_above(best.map_or(F::ZERO, |(_, figure)| figure)) {
            best = Some((selection, figure));
        }
    }
    for order in [Order::Number, Order::StrongestLean] {
        let found = select(&query, work, order, Patience::ENDLESS);
        let found = found.ok_or(Wrong::Openings)?;
        let free = table
            .options()
            .iter()
            .filter(|&&option| holds.is_free(option));
        let most_openings = (2 << free.count()) - 1;
        agree(
            (1..=most_openings).contains(&found.openings),
            Wrong::Openings,
        )?;
        let named = found.best.map(|best| (best.selection, best.figure));
        let agrees = match (order, named, best) {
            (Order::Number, named, best) => named == best,
            (_, None, None) => true,
            (_, Some((selection, figure)), Some((_, highest))) => {
                figure == highest && figure == brute_figure(table, sheet, &selection)
            }
            _ => false,
        };
        agree(agrees, Wrong::Select)?;
        checked.selects += 1;
    }
    Ok(())
}

/// The selections that keep the holds, in the order in which number order
/// meets them.
fn selections(table: &Table, holds: &Holds) -> Vec<Holds> {
    let mut selections = vec![*holds];
    for &option in table.options() {
        if !holds.is_free(option) {
            continue;
        }
        let both_sides = |selection: Holds| {
            [Entry::On, Entry::Off].map(|entry| {
                let mut selection = selection;
                selection.set(option, entry);
                selection
            })
        };
        selections = selections.into_iter().flat_map(both_sides).collect();
    }
    selections
}

/// The sum, over the scenarios that make the root true, of their weights.
fn brute_figure<F: Figure>(table: &Table, sheet: &[F], selection: &Holds) -> F {
    let chances: Vec<u16> = (1..)
        .zip(table.variables())
        .filter(|(_, variable)| variable.role == Role::Chance)
        .map(|(number, _)| number)
        .collect();
    let mut sum = F::ZERO;
    for scenario in 0..1_u32 << chances.len() {
        let mut world = *selection;
        let mut weight = F::ONE;
        for (index, &variable) in chances.iter().enumerate() {
            let on = scenario >> index & 1 == 1;
            world.set(variable, Entry::held(on));
            weight = weight.times(sheet[weight_place(Literal { variable, on })]);
        }
        if is_true(table, table.root(), &world) {
            sum = sum.plus(weight);
        }
    }
    sum
}

fn is_true(table: &Table, node: usize, world: &Holds) -> bool {
    match &table.nodes()[node] {
        Node::Literal(literal) => world.get(literal.variable) == Entry::held(literal.on),
        Node::And(children) => children.iter().all(|&child| is_true(table, child, world)),
        &Node::Fork { on, off, .. } => is_true(table, on, world) || is_true(table, off, world),
        Node::True => true,
        Node::False => false,
    }
}
