"""Random inputs and programs, whose answers are compared with the model, with runs or with a core."""
