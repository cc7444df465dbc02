import sys

sys.stdout.buffer.write(b"CNI1" + bytes(16777300))
