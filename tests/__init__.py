"""The test bench: what is seen at the built program from outside, judged by a model of its own.

`tools/test` runs it. It needs Linux and Python 3.11 or later; what it needs beyond that stands in
`needed.txt`, a Debian package a line.

| path | what it is |
|---|---|
| `commands/` | what the program's commands write, and what they leave of files and of secrets |
| `crates/` | what only the crates show: through `duk_driver`, and in their sources |
| `documents/` | the documents, the manual pages and the pictures: what they say is so |
| `hosts/` | `dukpt-host`, which serves many connections |
| `journals/` | `dukpt serve --journal`, `grow-journal` and `copy-journal` |
| `library/` | the library for other languages: its calls, its packages and its examples |
| `packages/` | the Debian packages, and a release |
| `page/` | the page, in a browser |
| `service/` | `dukpt serve` over a log, or over either store; its scripts and its unit |
| `tools/` | the commands of tools/ and bench/, `.ci/run`, and the rules of the repository |
| `vectors/` | the test vectors, their check, and the bench's own ciphers, which judge them |
| `worlds/` | whole worlds at random: scripts, streams and arguments, to the letter |
| `support/` | what the tests stand on: runs of programs, the model, the standards |
| `data/commands/` | arguments with the files that they name, and what the program has to write on each |
| `data/vectors/` | published values of the standards |
| `data/library/` | the programs in C that try each call of the library |
| `data/arena/` | the program in C that tries the heap of the page's player |
"""
