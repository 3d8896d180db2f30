"""`dukpt serve` over a log, or over either store; its scripts and its unit."""
