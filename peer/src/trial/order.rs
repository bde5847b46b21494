//! This file holds the trial of 01's order: each refusal of each call alone, every two that one input can meet, and larger sets.

use super::order_calls;
use super::order_desk;
use super::order_handover;
use super::order_making;
use super::order_report;
use super::order_store;
use super::pairing::Pairing;
use super::prng::Prng;
use crate::call::{Call, Lent};
use crate::refusals::Refusal;

/// The damages chosen for one input, by their names.
pub struct Damages<'a>(pub &'a [&'static str]);

impl Damages<'_> {
    pub fn has(&self, name: &str) -> bool {
        self.0.contains(&name)
    }
}

/// An input made from a good one by damages; `height` is what 11 must give.
pub struct Case {
    pub lent: Lent,
    pub call: Call,
    pub height: u64,
}

/// One call with its refusals in 01's order. Each step is a list of damages that meet the same refusal in different
/// ways; a damage's name begins with the number. `apart` names damages that no one input can meet together.
pub struct Plan {
    pub name: &'static str,
    pub steps: &'static [&'static [&'static str]],
    pub apart: &'static [(&'static str, &'static str)],
    pub build: fn(&mut Prng, &Damages) -> Case,
}

pub fn plans() -> Vec<Plan> {
    let mut plans = order_calls::plans();
    plans.extend(order_handover::plans());
    plans.extend(order_desk::plans());
    plans.extend(order_store::plans());
    plans.extend(order_report::plans());
    plans.extend(order_making::plans());
    plans
}

pub fn run(pairing: &mut Pairing, prng: &mut Prng) {
    for plan in plans() {
        run_one(pairing, prng, &plan, &[]);
        for (rank, step) in plan.steps.iter().enumerate() {
            for damage in *step {
                run_one(pairing, prng, &plan, &[damage]);
                for other in plan.steps[rank + 1..].iter().copied().flatten() {
                    run_one(pairing, prng, &plan, &[damage, other]);
                }
            }
        }
    }
}

/// A set of any size, at most one damage of each step.
pub fn run_any(pairing: &mut Pairing, prng: &mut Prng) {
    let plans = plans();
    let plan = prng.pick(&plans);
    let mut damages = Vec::new();
    for step in plan.steps {
        if prng.chance(1, 3) {
            damages.push(*prng.pick(step));
        }
    }
    run_one(pairing, prng, plan, &damages);
}

/// The damages stand in 01's order, so the first one's number is the answer.
fn run_one(pairing: &mut Pairing, prng: &mut Prng, plan: &Plan, damages: &[&'static str]) {
    let apart = plan.apart.iter().any(|(a, b)| {
        damages.iter().any(|name| matches_name(name, a)) && damages.iter().any(|name| matches_name(name, b))
    });
    if apart {
        return;
    }
    let number = damages.first().map_or(0, |name| number_of(name));
    let mut case = (plan.build)(prng, &Damages(damages));
    let what = format!("{} with {damages:?}", plan.name);
    let reply = pairing.expect(&what, &mut case.lent, &case.call, number);
    if number == 11 && reply.answer().height != case.height {
        pairing.fault(format!("{what}: the height given is {} and not {}", reply.answer().height, case.height));
    }
}

/// A name with a star at its end stands for all that begin so.
fn matches_name(name: &str, pattern: &str) -> bool {
    match pattern.strip_suffix('*') {
        Some(beginning) => name.starts_with(beginning),
        None => name == pattern,
    }
}

/// The number with which a damage's name begins.
fn number_of(name: &str) -> Refusal {
    let digits: String = name.chars().take_while(char::is_ascii_digit).collect();
    digits.parse().expect("each damage begins with its number")
}
