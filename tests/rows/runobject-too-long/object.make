import sys

# an object of nothing, and then more bytes than a file may have
sys.stdout.buffer.write(b"CNO1" + bytes(16777300))
