#!/usr/bin/env bash
# Whether the solver decides each problem where its search finds nothing: the tests of crates/list_tests over a copy of the
# crates in which the search is lost at once, so that the proved one answers, and a dense problem of SIZE persons, 200 if left
# out. They run without a proof (`rt try`). Needs the kit: tests/without_search.sh [SIZE]
set -euo pipefail
top=$(cd "$(dirname "$0")/.." && pwd)
size=${1:-200}
work=$(mktemp -d)
trap 'rm -rf "$work"' EXIT
. "$top/programs/over_crates.sh"
copy_crates "$top" "$work" list_tests
solver=$work/crates/list_solver/src/solver.rt
sed -i 's/    judge(alloc, lists, state, budget, ended)/    let _ = ended;\n    judge(alloc, lists, state, budget, Ended::Lost)/' "$solver"
grep -q 'Ended::Lost' "$solver" || { echo "the search is as it was"; exit 1; }
cat >> "$work/crates/list_tests/src/exact/larger.rt" << END

#[test]
fn a_dense_problem(rt: HostRuntime) -> Result<(), Fail> {
    let mut seed = 71;
    let mut problem = dense_problem(rt.alloc(), &mut seed, 0, $size, $size)?;
    for cost in problem.costs.iter_mut() {
        *cost = Cost::from(draw(&mut seed, 1_000_000));
    }
    let Some(lists) = caller_lists(&problem) else {
        return Err("the problem is out of the limits".into());
    };
    let state = nothing(rt.alloc(), $size, $size)?;
    let found = in_pieces(rt.alloc(), &lists, state, 0, 1)?;
    assert!(rt; matches!(found, Finding::Best(_)));
    Ok(())
}
END
cd "$work/crates/list_tests"
rt try --test --seconds 900 > "$work/log" 2>&1 || { grep -v ' ok$' "$work/log"; exit 1; }
echo "without a search: $(grep -c ' ok$' "$work/log") tests"
