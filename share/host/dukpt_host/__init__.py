"""The payment host for any number of connections: over a journal by one `dukpt serve CONFIG
--journal FILE`, or over PostgreSQL, where any number of hosts share one book.

All that is decided of a payment over a journal is decided by that process, which is proved: what is
here moves whole frames to it and its answers back, and sees that it runs. Over PostgreSQL the
library judges frames and makes replies, and a function in the database settles what comes of them.

| module | what it has |
|---|---|
| `main`, `arguments`, `settings` | the command, and what it is told |
| `host` | all parts together: how it starts, and how it stops |
| `frames` | frames of a stream, and what an answer says |
| `connection`, `connections` | a connection; all of them, and their limits |
| `waiting` | the frames that wait, and the groups that they go in |
| `deciding`, `exchange` | what decides groups; groups to it, and its answers back |
| `serving` | what a host needs of its service |
| `below` | the process below |
| `service` | its starts, its ends, and what follows on them |
| `journal` | the state beside a journal, a checked copy in its place, and its room |
| `book` | the service over PostgreSQL |
| `configuration` | what is read of the configuration |
| `components`, `keys` | the local master key; the keys of the key blocks under it |
| `listening`, `web` | sockets; metrics and health over HTTP |
| `metrics`, `log` | what is counted, and what is told |
"""
