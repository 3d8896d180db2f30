"""What stands below a program: disks that lose power, system calls, memory, a whole system."""
