//! docs/RULES.md names only what is there, and leaves out no wrong build, no public function and no file of definitions.

use rules::{
    changes_definition, claims, definition_files, exists, is_claim, names, public_functions,
    theorems, wrong_builds,
};

#[test]
fn every_name_exists() {
    let missing: Vec<_> = names().into_iter().filter(|name| !exists(name)).collect();
    assert!(
        missing.is_empty(),
        "docs/RULES.md names what is not there: {missing:#?}"
    );
}

#[test]
fn every_wrong_build_is_named() {
    let names = names();
    assert!(wrong_builds().len() > 100);
    let lost: Vec<_> = wrong_builds()
        .into_iter()
        .filter(|build| !names.contains(build))
        .collect();
    assert!(lost.is_empty(), "docs/RULES.md has no row with {lost:#?}");
}

#[test]
fn every_public_function_is_named() {
    let names = names();
    let is_named = |krate: &str, function: &str| {
        names.iter().any(|name| {
            name.starts_with(&format!("{krate}::")) && name.rsplit("::").next() == Some(function)
        })
    };
    assert!(public_functions().len() > 30);
    let lost: Vec<_> = public_functions()
        .into_iter()
        .filter(|(krate, function)| !is_named(krate, function))
        .collect();
    assert!(lost.is_empty(), "docs/RULES.md has no row with {lost:#?}");
}

#[test]
fn every_file_of_definitions_is_named() {
    let names = names();
    let is_named = |file: &str| {
        names
            .iter()
            .any(|name| name == file || name.starts_with(&format!("{file}.")))
    };
    let lost: Vec<_> = definition_files()
        .into_iter()
        .filter(|file| !is_named(file))
        .collect();
    assert!(lost.is_empty(), "docs/RULES.md has no row with {lost:#?}");
}

#[test]
fn every_theorem_here_is_a_claim_of_specs() {
    let closed: Vec<_> = theorems()
        .into_iter()
        .filter(|(_, claim)| is_claim(claim))
        .map(|(theorem, _)| theorem)
        .collect();
    let open: Vec<_> = names()
        .into_iter()
        .filter(|name| name.contains(".proofs.") && !closed.contains(name))
        .collect();
    assert!(open.is_empty(), "not of exactly a claim's type: {open:#?}");
}

#[test]
fn every_theorem_of_a_claim_is_named() {
    let names = names();
    assert!(theorems().len() > 40);
    let lost: Vec<_> = theorems()
        .into_iter()
        .filter(|(theorem, claim)| is_claim(claim) && !names.contains(theorem))
        .collect();
    assert!(lost.is_empty(), "docs/RULES.md has no row with {lost:#?}");
}

#[test]
fn every_claim_has_its_theorem() {
    let proved = theorems();
    assert!(claims().len() > 40);
    let unproved: Vec<_> = claims()
        .into_iter()
        .filter(|(krate, claim)| {
            let prefix = format!("{krate}.proofs.");
            !proved
                .iter()
                .any(|(theorem, proves)| theorem.starts_with(&prefix) && proves == claim)
        })
        .collect();
    assert!(unproved.is_empty(), "no theorem has the type {unproved:#?}");
}

#[test]
fn every_changed_definition_is_marked() {
    let unmarked: Vec<_> = wrong_builds()
        .into_iter()
        .filter(|build| {
            let (krate, label) = build.split_once('/').unwrap();
            changes_definition(krate, label) != label.starts_with("spec_")
        })
        .collect();
    assert!(unmarked.is_empty(), "spec_ or not: {unmarked:#?}");
}

#[test]
fn a_name_that_is_not_there_is_noticed() {
    for name in [
        "planner.Plan.plan_off",
        "planner.Plans.plan_of",
        "planner::plans",
        "planner/no_byte",
        "planner",
        "planner.proofs.Plan.plan_of",
        "rest/",
    ] {
        assert!(!exists(name), "{name}");
    }
}
