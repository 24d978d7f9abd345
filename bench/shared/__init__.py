"""What more than one of the groups needs."""
