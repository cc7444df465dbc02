import sys
sys.stdout.write("step,n\n".ljust(16777217, "\n"))
