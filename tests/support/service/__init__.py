"""Services as they run: their clients, their lives, and stand-ins for them."""
