print("task t { " + "out 1,1;" * 29999 + " } event e spacing 1 deadline 1 { }")
