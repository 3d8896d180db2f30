"""The book of all hosts in PostgreSQL.

| file | what it has |
|---|---|
| `schema.sql` | the tables, and the function that settles a group |
| `settling` | a group to that function, and what came of each |
| `demands` | what is demanded of the database before it is served over |
| `opening` | a connection to the database that is the primary |
| `lane` | a connection that has a group at a time |
| `service` | all lanes, and the watch over the database |
| `counts` | what is counted of it |
"""
