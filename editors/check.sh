#!/bin/sh
# Compares what Vim's syntax and the TextMate grammars colour with the program's own tokens, on all examples; tries the
# folder textmate/ as an extension, Vim's compiler file, the completion scripts and the manual page. It takes another
# program than the built one as its argument, needs vim and python3, and is run by hand.
set -eu
cd "$(dirname "$0")/.."
. bench/programs.sh
take_program "${1-}"
python3 editors/check.py "$program" examples/*.koika
python3 editors/extension.py "$program"
bash editors/completion/check.bash
if command -v zsh >/dev/null; then zsh -n editors/completion/_koika && echo "zsh reads its completion"; fi
if command -v mandoc >/dev/null; then mandoc -T lint -W warning editors/koika.1 && echo "mandoc reads the manual page"; fi
