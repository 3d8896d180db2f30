"""What the tests stand on. `program`, `quick` and `listing` run a program and see what it leaves;
`case` is the base of each test, and `runner` the command.

| folder | what it is |
|---|---|
| `commands/` | what each command has to write, and how a run of it is judged |
| `crates/` | the program `duk_driver`, and the sources as trees of tokens |
| `documents/` | the pages of docs/ as they are read, and their pictures |
| `formats/` | frames, images, logs, journals, configurations and scripts, by docs/FORMATS.md |
| `library/` | the library in each language, and what each of its calls answers |
| `models/` | the independent model of terminals, tills, network, hosts and stores |
| `packages/` | the Debian packages and releases, as they are made and read |
| `page/` | the page in a browser, and what it has to show |
| `service/` | services as they run: their clients, their lives, and stand-ins for them |
| `standards/` | the standards' ciphers, keys, MACs, PIN blocks and key blocks |
| `system/` | what stands below a program: disks that lose power, system calls, memory, a whole system |
| `vectors/` | the answer to each test vector, and the check's adapters |
| `worlds/` | worlds, scripts and streams at random, and the laws that hold of them |
"""
