print("task t { " + "out 1,1;" * 29999 + " }")
