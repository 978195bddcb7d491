//! A sheet that shows a difference made smaller: rules and items go as long as it still shows one.

use std::iter::successors;

use oracle::form::Form;

use crate::rule::Rule;
use crate::sheet::{read_sheet, write_sheet};

/// The smallest sheet found that still differs. One that can't be read stays as it is.
pub fn shrunk(form: Form, sheet: Vec<u8>, differs: impl Fn(&[u8]) -> bool) -> Vec<u8> {
    let Ok(read) = read_sheet(form, &sheet) else {
        return sheet;
    };

    let mut rules = read.rules;
    let still_differs = |rules: &Vec<Rule>| differs(&write_sheet(form, rules.clone()));

    loop {
        let found = smaller_ones(&rules).find(still_differs);
        match found {
            Some(smaller) => rules = smaller,
            None => break,
        }
    }

    match write_sheet(form, rules) {
        smaller if differs(&smaller) => smaller,
        _ => sheet,
    }
}

/// The rules without a half of them, a quarter and so on, then with one rule less, then with one item less.
fn smaller_ones(rules: &[Rule]) -> impl Iterator<Item = Vec<Rule>> {
    let halvings = successors(Some(rules.len() / 2), |size| Some(size / 2));
    let without_a_part = halvings.take_while(|size| *size > 1).flat_map(move |size| {
        let starts = (0..rules.len()).step_by(size);
        starts.map(move |start| without(rules, start, size.min(rules.len() - start)))
    });
    let with_less = rules.iter().enumerate().flat_map(move |(place, rule)| {
        with_an_item_less(rule).into_iter().map(move |rule| {
            let mut rules = rules.to_vec();
            rules[place] = rule;
            rules
        })
    });

    without_a_part.chain(one_less(rules)).chain(with_less)
}

fn without<T: Clone>(items: &[T], start: usize, size: usize) -> Vec<T> {
    [&items[..start], &items[start + size..]].concat()
}

fn with_an_item_less(rule: &Rule) -> Vec<Rule> {
    let mut smaller = Vec::new();
    let whole = || rule.clone();

    smaller.extend(one_less(&rule.years).map(|years| Rule { years, ..whole() }));
    smaller.extend(one_less(&rule.monthdays).map(|monthdays| Rule {
        monthdays,
        ..whole()
    }));
    smaller.extend(one_less(&rule.weeks).map(|weeks| Rule { weeks, ..whole() }));
    smaller.extend(one_less(&rule.weekdays).map(|weekdays| Rule {
        weekdays,
        ..whole()
    }));
    smaller.extend(one_less(&rule.spans).map(|spans| Rule { spans, ..whole() }));
    smaller
}

fn one_less<T: Clone>(items: &[T]) -> impl Iterator<Item = Vec<T>> {
    (0..items.len()).map(|place| without(items, place, 1))
}
