"""Prints the first transaction key of the standard's samples."""
import dukpt

BDK = bytes.fromhex("0123456789ABCDEFFEDCBA9876543210")
KSN = bytes.fromhex("FFFF9876543210E00001")

print(dukpt.derive(BDK, KSN).hex().upper())
