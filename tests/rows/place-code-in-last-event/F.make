print("event e spacing 1 deadline 1 { } task t { " + "out 1,1;" * 29997 + "post t; } event f spacing 1 deadline 1 { post t; post t; }")
