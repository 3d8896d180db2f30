"""What the public contracts rest on: the definitions that they cite, followed to the last one."""
