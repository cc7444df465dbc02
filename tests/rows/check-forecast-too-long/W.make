import sys
sys.stdout.write("tick,p,q\n0,10,3\n" + "\n" * 16777201)
