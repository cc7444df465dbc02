print("event e spacing 1 deadline 1 { post t; post t; } task t { " + "out 1,1;" * 29998 + " }")
