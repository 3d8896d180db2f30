"""The independent model of terminals, tills, network, hosts and stores."""
