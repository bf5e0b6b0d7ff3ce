#!/usr/bin/env bash
# Measures the lexer: texts of tokens alone, of growing length, whose first token begins no item. So a run takes the
# text, sees that it is UTF-8, makes all of its tokens, and refuses it at once.
. "$(dirname "${BASH_SOURCE[0]}")/common.sh"

line='where x_1 <= 1024 and not (b.c != "text\u{1F600}") -> { [ : ] } := is-empty pre-image // comment'

# As many whole lines of tokens as fit, then blanks.
tokens() {
  yes "$line" | head -c $(($1 - 200)) | sed '$d' >"$folder/text"
  head -c $(($1 - $(stat -c %s "$folder/text"))) /dev/zero | tr '\0' ' ' >>"$folder/text"
}

growth run tokens 131072 262144 524288 1048576
