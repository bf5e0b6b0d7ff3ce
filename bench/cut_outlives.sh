#!/usr/bin/env bash
# A cut can't outlive the tree that lends it its parts: a program that drops the tree while it holds the cut is refused by the
# toolchain. Copies the crates to a folder of its own, adds that program, and shows the refusal. Ends with 0 where it is
# refused.
set -u
here=$(cd "$(dirname "${BASH_SOURCE[0]}")/.." && pwd)
folder=$(mktemp -d)
trap 'rm -rf "$folder"' EXIT
(cd "$here" && tar --exclude=out -cf - crates crates.txt HANDLES) | (cd "$folder" && tar -xf -)
echo 'outlives: fast_cut fast_tree model_sttr model_sta model_tree fast_fault' >>"$folder/crates.txt"
mkdir -p "$folder/crates/outlives/src"
cat >"$folder/crates/outlives/src/main.rt" <<'PROGRAM'
#![tactic(auto)]

use fast_cut::Cut;
use fast_tree::{Label, Tree};
use std::alloc::AllocError;

fn main(rt: HostRuntime) -> Result<(), AllocError> {
    let cut;
    {
        let label = Label::new(Vec::new(rt.alloc()));
        let tree = Tree::new(0, label, Vec::new(rt.alloc()));
        cut = Cut::Keep(&tree);
    }
    if let Cut::Keep(tree) = cut {
        let _constructor = tree.constructor();
    }
    Ok(())
}
PROGRAM
cd "$folder/crates/outlives" || exit 1
told=$(rt try 2>&1)
if echo "$told" | grep -q 'src/main.rt.*error'; then
  echo "$told" | grep 'src/main.rt.*error'
  exit 0
fi
echo "$told" | tail -5
echo 'not refused'
exit 1
