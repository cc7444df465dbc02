print("int a[3]; task t { out 1, 1; if true { } else { a[0] = " + "1 + (" * 30 + "1 + 1" + ")" * 30 + "; } }")
