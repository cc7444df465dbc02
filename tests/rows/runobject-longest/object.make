import struct
import sys


def code(number, a=0, c=0):
    return struct.pack("<BBHI", number, a, 0, c)


# a task, and a version of 1,000,000 instructions: 997 posts, and 1,000 turns of 997 posts and a jump
PUSH, JUMP, TURN, BEGIN, END, POST = 0, 18, 20, 21, 22, 26
version = code(POST) * 997 + code(PUSH, c=1000) + code(TURN, c=2 + 997 + 2 + 997 + 1) + code(POST) * 997 + code(JUMP, c=2 + 997 + 1) + code(END)
instructions = code(BEGIN) + code(END) + version
head = b"CNO1" + struct.pack("<HBBI", 0, 1, 1, len(instructions) // 8)
sys.stdout.buffer.write(head + struct.pack("<HHI", 0, 0, 0) + struct.pack("<BBHI", 1, 0, 0, 2) + instructions)
