//! Models and formulas as text, made by chance.

use bithrowy_tests::random::Random;

const LABELS: [&str; 3] = ["a", "b", "c"];
/// Labels of several names, alike and not, the silent step, and one that needs quotes.
const OTHERS: [&str; 5] = ["a|b", "b|a", "a|a|b", "tau", "\"x y\""];

/// A label as both texts write it: from the few, or, if others are wanted, now and then one of the others.
fn label(random: &mut Random, others: bool) -> &'static str {
    if others && random.chance(1, 3) {
        random.pick(&OTHERS)
    } else {
        random.pick(&LABELS)
    }
}

/// A model with at most so many states. Most have few transitions from each state.
pub fn model(random: &mut Random, most_states: usize) -> String {
    let states = random.between(1, most_states);
    let others = random.chance(1, 4);
    let mut lines = Vec::new();
    for source in 0..states {
        for _ in 0..random.pick(&[0, 1, 1, 1, 2, 2, 3]) {
            let target = if random.chance(1, 3) { (source + 1) % states } else { random.below(states) };
            lines.push(format!("({source}, {}, {target})\n", label(random, others)));
        }
    }
    if !lines.is_empty() && random.chance(1, 4) {
        let copy = lines[random.below(lines.len())].clone();
        lines.push(copy);
    }
    format!("des ({}, {}, {states})\n{}", random.below(states), lines.len(), lines.concat())
}

/// A formula about runs: often with a binder around it, so that it goes on.
pub fn formula(random: &mut Random) -> String {
    let depth = random.between(1, 4);
    state(random, depth, &mut Vec::new())
}

/// A formula with the same fact to be shown in each state that comes, maybe behind a step: `nu X. <b>true && [!c]X`.
pub fn fact_in_each_state(random: &mut Random) -> String {
    let (fact, action, step) = (leaf(random, &[]), action(random), action(random));
    let sign = random.pick(&["mu", "nu"]);
    let lasting = if random.chance(1, 2) {
        format!("{sign} X. {fact} && [{action}]X")
    } else {
        format!("{sign} X. {fact} || <{action}>X")
    };
    match random.below(3) {
        0 => lasting,
        1 => format!("[{step}]({lasting})"),
        _ => format!("<{step}>({lasting})"),
    }
}

fn state(random: &mut Random, depth: usize, variables: &mut Vec<String>) -> String {
    if depth == 0 {
        return leaf(random, variables);
    }
    match random.below(12) {
        0..=2 => binder(random, depth, variables),
        3..=5 => modality(random, depth, variables),
        6 | 7 => sides(random, depth, "&&", variables),
        8 | 9 => sides(random, depth, "||", variables),
        10 => format!("!({})", state(random, depth - 1, &mut Vec::new())),
        _ => leaf(random, variables),
    }
}

fn leaf(random: &mut Random, variables: &[String]) -> String {
    match random.below(5) {
        0..=2 if !variables.is_empty() => variables[random.below(variables.len())].clone(),
        0 => random.pick(&["true", "false"]).to_string(),
        1 | 2 => format!("[{}]false", action(random)),
        _ => format!("<{}>true", action(random)),
    }
}

fn binder(random: &mut Random, depth: usize, variables: &mut Vec<String>) -> String {
    let name = format!("X{}", variables.len());
    let sign = random.pick(&["mu", "nu"]);
    variables.push(name.clone());
    let body = match random.below(3) {
        0 => state(random, depth - 1, variables),
        1 => {
            let rest = state(random, depth - 1, variables);
            format!("({rest}) {} {}", random.pick(&["&&", "||"]), step_to_variable(random, variables))
        }
        _ => step_to_variable(random, variables),
    };
    variables.pop();
    format!("({sign} {name}. {body})")
}

fn step_to_variable(random: &mut Random, variables: &[String]) -> String {
    let variable = &variables[random.below(variables.len())];
    let action = action(random);
    match random.below(5) {
        0 | 1 => format!("[{action}]{variable}"),
        2 | 3 => format!("<{action}>{variable}"),
        _ => format!("<{action}>[true]{variable}"),
    }
}

fn modality(random: &mut Random, depth: usize, variables: &mut Vec<String>) -> String {
    let rest = state(random, depth - 1, variables);
    let steps = match random.below(8) {
        0 | 1 => "true*".to_string(),
        2 => format!("true* . {}", action(random)),
        3 => format!("({})*", action(random)),
        4 => format!("{} . {}", action(random), action(random)),
        _ => action(random),
    };
    if random.chance(1, 2) {
        format!("[{steps}]({rest})")
    } else {
        format!("<{steps}>({rest})")
    }
}

fn sides(random: &mut Random, depth: usize, sign: &str, variables: &mut Vec<String>) -> String {
    let first = state(random, depth - 1, variables);
    let second = state(random, depth - 1, variables);
    format!("(({first}) {sign} ({second}))")
}

fn action(random: &mut Random) -> String {
    let others = random.chance(1, 8);
    match random.below(8) {
        0..=2 => label(random, others).to_string(),
        3 => format!("!({})", label(random, others)),
        4 => format!("{} || {}", label(random, others), label(random, others)),
        _ => "true".to_string(),
    }
}
