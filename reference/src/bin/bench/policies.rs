//! The rows on policies: of 64 roles and 32 principals, and of one role.

use std::hint::black_box;

use reference::generate::{chain_back, chain_onward, circle, dense, encode, valid_of_size};
use reference::rng::Rng;
use reference::{fast, policy, proved, safe};

use crate::making::minimal;
use crate::table::Table;

pub fn rows(table: &mut Table) {
    let policies = [
        ("1 role", minimal(), 0),
        ("chain, each takes the next", chain_onward(), 0),
        ("chain, each takes the one before", chain_back(), 63),
        ("circle", circle(), 0),
        ("dense, each takes all", dense(), 0),
        ("random", valid_of_size(&mut Rng::new(50), 32, 64), 0),
    ];
    table.head("policies");
    for (name, policy, role) in policies {
        let bytes = &encode(&policy);
        table.row(
            &format!("policy: {name}"),
            || proved::policy(black_box(bytes)),
            || safe::policy(black_box(bytes)),
            || fast::policy(black_box(bytes)),
            || policy::check(black_box(bytes)),
        );
        table.row(
            &format!("meaning: {name}"),
            || proved::meaning(black_box(bytes), black_box(role)),
            || safe::meaning(black_box(bytes), black_box(role)),
            || fast::meaning(black_box(bytes), black_box(role)),
            || policy::meaning(black_box(bytes), black_box(role)),
        );
    }
}
