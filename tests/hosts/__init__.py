"""`dukpt-host`, which serves many connections."""
