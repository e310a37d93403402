#!/usr/bin/env bash
# Proves and links the program, and runs an example. A line a crate goes to the terminal, and what the kit says to a file.
set -u
cd "$(dirname "$0")/.." || exit 1

said=${TMPDIR:-/tmp}/brpc_run_build.$$.log
: >"$said"
# The crates below the program, in the order of the map.
for crate in rpc_base bit_set rpc_model model_laws call_numbers call_script rpc_meta prpc_frames id_pool timer_core chan_tree fan_out call_leaf call_tree link_core sim_run script_gen brpc_top; do
    start=$SECONDS
    if (cd "crates/$crate" && rt check) >>"$said" 2>&1; then
        functions=$(tail -n 1 "$said" | sed -n 's/.*functions=\([0-9]*\).*/\1/p')
        echo "$crate: proved, ${functions:-some} functions, $((SECONDS - start)) s"
    else
        echo "$crate: not proved; see $said"
        exit 1
    fi
done
if (cd crates/brpc_run && rt run -- sim <../../examples/race.script) >"$said.out" 2>>"$said"; then
    echo "brpc_run: proved and linked, crates/brpc_run/out/brpc_run"
else
    echo "brpc_run: not built; see $said"
    exit 1
fi
echo "What the kit said stands in $said. The program on examples/race.script:"
cat "$said.out"
