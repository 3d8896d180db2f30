"""`dukpt serve --journal`, `grow-journal` and `copy-journal`."""
