//! What the desk's page asks for, as JSON: the view, and records of the page copies.

use kophdaen::layout::{object_at, occupied, page_of, slot_of, REFERENCES, SLOTS, TRANSACTIONS};
use kophdaen::{OBJECT_WORDS, PAGE_WORDS};

use crate::json;
use crate::server::Server;
use crate::view::{HeldPage, Sample, Transaction, View};

/// Objects in range, and the page copies that they are shown from.
pub struct Named {
    pub objects: Vec<u32>,
    pub copies: Vec<u32>,
}

pub fn in_range(copies: &[u32], object: u32) -> bool {
    (1..=copies.len() / PAGE_WORDS * SLOTS).contains(&(object as usize))
}

fn words(copies: &[u32], object: u32) -> &[u32] {
    &copies[object_at(object)..][..OBJECT_WORDS]
}

pub fn object(server: &Server, named: &Named) -> Result<String, &'static str> {
    let [object] = named.objects[..] else {
        return Err("one object's number");
    };
    let (refusal, chain) = server.chain(object);
    Ok(json::object(&[
        ("number", object.to_string()),
        ("page", page_of(object).to_string()),
        ("slot", slot_of(object).to_string()),
        ("occupied", occupied(&named.copies, object).to_string()),
        ("words", json::list(words(&named.copies, object))),
        ("refusal", refusal.to_string()),
        ("chain", json::list(chain)),
    ]))
}

/// What the tree shows below each object.
pub fn children(named: &Named) -> String {
    let one = |object: &u32| {
        json::object(&[
            ("number", object.to_string()),
            ("occupied", occupied(&named.copies, *object).to_string()),
            ("words", json::list(words(&named.copies, *object))),
            ("children", json::list(references(&named.copies, *object).map(|pair| child(&named.copies, pair)))),
        ])
    };
    json::object(&[("objects", json::list(named.objects.iter().map(one)))])
}

/// The references of an object, each with its word; 0 is none.
fn references(copies: &[u32], object: u32) -> impl Iterator<Item = (usize, u32)> + '_ {
    let words = words(copies, object)[..REFERENCES].iter().copied().enumerate();
    words.filter(|pair| in_range(copies, pair.1))
}

fn child(copies: &[u32], (word, object): (usize, u32)) -> String {
    json::object(&[
        ("word", word.to_string()),
        ("object", object.to_string()),
        ("occupied", occupied(copies, object).to_string()),
        ("has_children", references(copies, object).next().is_some().to_string()),
        ("data", json::list(&words(copies, object)[REFERENCES..])),
    ])
}

/// The view, with the maps of the page copies; of the samples those after the second that the page has already.
pub fn state(server: &Server, since: Option<&str>) -> String {
    let since: Option<u64> = since.and_then(|second| second.parse().ok());
    let (view, copies) = (server.view(), server.copies());
    let samples = view.samples.iter().filter(|sample| since.is_none_or(|since| sample.second > since));
    let mut fields = numbers(&view);
    fields.extend([
        ("slots", SLOTS.to_string()),
        ("references", REFERENCES.to_string()),
        ("transactions_at_most", TRANSACTIONS.to_string()),
        ("draining", view.draining.to_string()),
        ("maps", json::list(copies.iter().step_by(PAGE_WORDS))),
        ("transactions", json::list(view.transactions.iter().map(transaction))),
        ("held", json::list(view.held.iter().map(held))),
        ("samples", json::list(samples.map(sample))),
    ]);
    json::object(&fields)
}

fn numbers(view: &View) -> Vec<(&'static str, String)> {
    vec![
        ("pages", view.pages.to_string()),
        ("room", view.room.to_string()),
        ("received", view.received.to_string()),
        ("stable", view.stable.to_string()),
        ("epoch", view.epoch.to_string()),
        ("uptime", view.uptime.to_string()),
        ("commits", view.commits.to_string()),
        ("aborts", view.aborts.to_string()),
        ("checkpoints", view.checkpoints.to_string()),
        ("checkpoint_longest_us", view.checkpoint_longest_us.to_string()),
        ("passes", view.passes.to_string()),
        ("freed", view.freed.to_string()),
        ("phase", view.phase.to_string()),
        ("pass_page", view.pass_page.to_string()),
        ("pass_step", view.pass_step.to_string()),
        ("step_bound", view.step_bound.to_string()),
        ("occupied", view.occupied.to_string()),
        ("connections", view.connections.to_string()),
        ("waiting", view.waiting.to_string()),
    ]
}

fn transaction(one: &Transaction) -> String {
    json::object(&[
        ("slot", one.slot.to_string()),
        ("own", one.own.to_string()),
        ("client", one.client.to_string()),
        ("client_name", json::text(&one.client_name)),
        ("name", json::text(&one.name)),
        ("seconds", one.seconds.to_string()),
        ("quiet", one.quiet.to_string()),
    ])
}

fn held(page: &HeldPage) -> String {
    json::object(&[
        ("page", page.page.to_string()),
        ("writer", json::option(page.writer)),
        ("readers", json::list(&page.readers)),
    ])
}

/// Without names: there are hundreds of them.
fn sample(one: &Sample) -> String {
    let numbers = [u64::from(one.step), one.steps, u64::from(one.occupied), u64::from(one.received), one.freed];
    json::list([one.second].into_iter().chain(numbers))
}
