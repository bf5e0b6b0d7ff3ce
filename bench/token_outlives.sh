#!/usr/bin/env bash
# A token can't outlive its text: a program that hands out the tokens of a text that it drops is refused by the toolchain.
# Copies the crates to a folder of its own, adds that program, and shows the refusal. Ends with 0 where it is refused.
set -u
here=$(cd "$(dirname "${BASH_SOURCE[0]}")/.." && pwd)
folder=$(mktemp -d)
trap 'rm -rf "$folder"' EXIT
(cd "$here" && tar --exclude=out -cf - crates crates.txt HANDLES) | (cd "$folder" && tar -xf -)
echo 'outlives: fast_lex model_program fast_fault' >>"$folder/crates.txt"
mkdir -p "$folder/crates/outlives/src"
cat >"$folder/crates/outlives/src/main.rt" <<'PROGRAM'
#![tactic(auto)]

use fast_lex::{Lexed, tokens};
use std::alloc::AllocError;

fn main(rt: HostRuntime) -> Result<(), AllocError> {
    let lexed;
    {
        let text = format!(in rt.alloc(); "lang")?;
        lexed = tokens(rt.alloc(), text.as_str());
    }
    if let Lexed::Tokens(tokens) = lexed {
        let _count = tokens.len();
    }
    Ok(())
}
PROGRAM
cd "$folder/crates/outlives" || exit 1
told=$(rt try 2>&1)
if echo "$told" | grep -q 'src/main.rt.*error'; then
  echo "$told" | grep 'src/main.rt.*error'
  exit 0
fi
echo "$told" | tail -5
echo 'not refused'
exit 1
