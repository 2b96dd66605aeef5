//! The `principals` lines of an order.

use model::order::covered;
use model::Names;

use crate::word::Word;

/// Groups of principals, each of which stands right below all of the next.
type Chain = Vec<Vec<usize>>;

/// Lines that come to this order and these numbers. Principals that have the same
/// ones right below them stand in one group. A first line names all of them where
/// the chains alone would number them otherwise.
pub fn principals(masks: &[u32], names: &Names) -> String {
    let chains = chains(masks);
    let mut mentioned: Vec<usize> = vec![];
    for principal in chains.iter().flatten().flatten() {
        if !mentioned.contains(principal) {
            mentioned.push(*principal);
        }
    }
    let all: Vec<usize> = (0..masks.len()).collect();
    let first = (mentioned != all).then(|| vec![all]);
    let lines = first.into_iter().chain(chains);
    lines.map(|chain| line(&chain, names)).collect()
}

fn line(chain: &Chain, names: &Names) -> String {
    let group = |group: &Vec<usize>| {
        let group = group.iter().map(|principal| names.principal(*principal));
        group.collect::<Vec<_>>().join(", ")
    };
    let groups: Vec<String> = chain.iter().map(group).collect();
    format!("{} {}\n", Word::Principals, groups.join(" < "))
}

/// Every principal with those right below it, put together as far as it goes.
fn chains(masks: &[u32]) -> Vec<Chain> {
    let mut steps: Vec<(Vec<usize>, Vec<usize>)> = vec![];
    for upper in 0..masks.len() {
        let lower = covered(masks, upper);
        match steps.iter_mut().find(|(group, _)| *group == lower) {
            _ if lower.is_empty() => {}
            Some((_, uppers)) => uppers.push(upper),
            None => steps.push((lower, vec![upper])),
        }
    }
    let starts = steps
        .iter()
        .filter(|(lower, _)| steps.iter().all(|(_, upper)| upper != lower));
    starts
        .map(|(lower, upper)| {
            let mut chain = vec![lower.clone(), upper.clone()];
            while let Some((_, next)) = steps.iter().find(|(lower, _)| chain.last() == Some(lower))
            {
                chain.push(next.clone());
            }
            chain
        })
        .collect()
}
